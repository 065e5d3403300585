"""What a test says where it does not see what it expects."""


class Failure(Exception):
    """What a test expected and did not see."""


def same(what, seen, expected):
    if seen != expected:
        raise Failure(f"{what}: seen {seen!r}, expected {expected!r}")


def holds(what, is_so):
    if not is_so:
        raise Failure(what)
