"""How texts of files are shown: no sign of theirs moves what a terminal shows, ends a line or begins one."""

SHORT = {"\t": "\\t", "\n": "\\n", "\r": "\\r"}


def escaped(text: str, kept: str = "") -> str:
    """The text with an escape for each sign that is not printed as itself, but for the kept ones."""
    if text.isprintable():
        return text
    return "".join(sign if sign.isprintable() or sign in kept else escape(sign) for sign in text)


def escape(sign: str) -> str:
    """A sign as Python writes it in a text; a byte of a name that is no UTF-8 as that byte."""
    number = ord(sign)
    if 0xDC80 <= number <= 0xDCFF:
        number -= 0xDC00
    return SHORT.get(sign) or (f"\\x{number:02x}" if number < 0x100 else f"\\u{number:04x}" if number < 0x10000 else f"\\U{number:08x}")


def shortened(line: str, most: int) -> str:
    """A line without its middle where it is long."""
    if len(line) <= most:
        return line
    front = most * 2 // 3
    return f"{line[:front]} .. {line[front - most:]}"
