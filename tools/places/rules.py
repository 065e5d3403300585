"""Mock rules: what their file says, with its places, or the first fault of it."""

import json
from dataclasses import dataclass, field
from typing import Any, Dict, List, Optional

from .json_places import Member, Value, members, text_of, whole
from .marks import Finding
from .near import meant, said
from .scripts import fault_of
from .source import Source
from .trees import quoted

MOST_DELAY = 4_294_967_295

PARTS = ("TestNodeConfigs", "SubstitutionRules")

STATUSES = ("SUCCESS", "FAILURE")

MEMBERS = ("return_status", "async_delay", "post_script")


@dataclass(frozen=True)
class Configuration:
    """A configuration: its name, and its members by their names, the last of each."""

    name: Value
    members: Dict[str, Member]

    def get(self, name: str, default: Any) -> Any:
        """What a member says."""
        return self.members[name].value.value if name in self.members else default


@dataclass(frozen=True)
class Rule:
    """A rule: its pattern, and what it names."""

    pattern: Value
    named: Value


@dataclass
class Rules:
    """What a rules file says. The rules stand by the bytes of their patterns."""

    source: Source
    configurations: Dict[str, Configuration] = field(default_factory=dict)
    rules: List[Rule] = field(default_factory=list)
    # members that are not read, each with what may be meant
    unread: "List[tuple[Member, List[str]]]" = field(default_factory=list)


def read_rules(source: Source) -> Rules:
    """What a rules file says. Raises its first fault."""
    try:
        text = text_of(source)
        document = whole(text)
    except UnicodeDecodeError as error:
        raise no_json((error.start, error.start + 1), "the file is not UTF-8")
    except json.JSONDecodeError as error:
        at = len(error.doc[:error.pos].encode("utf-8"))
        raise no_json((at, at + 1), error.msg[0].lower() + error.msg[1:])
    except (ValueError, RecursionError):
        raise no_json((0, 1), "a part of it is none, or nested too deep")
    return Reading(source, text).of(document)


def no_json(span: "tuple[int, int]", message: str) -> Finding:
    """That a file is no JSON text."""
    return Finding("Json", span, f"the rules file is no JSON text (Json): {message}", ["the form of rules is in docs/formats.md"])


class Reading:
    """Reads the members of a rules file."""

    def __init__(self, source: Source, text: str):
        self.source, self.text = source, text
        self.rules = Rules(source)

    def of(self, document: Value) -> Rules:
        """What the document says. Raises its first fault."""
        if not isinstance(document.value, dict):
            raise self.form("", document, "the rules are no object", ['write { "TestNodeConfigs": {}, "SubstitutionRules": {} }'])
        parts = self.last_of(document)
        for name in PARTS:
            if name in parts and not isinstance(parts[name].value.value, dict):
                raise self.form("", parts[name].value, f"{name} is no object", [f'write "{name}": {{ .. }}'])
        self.rules.unread += [(member, meant(member.name.value, PARTS) or [f"the members that are read are {said(PARTS)}"])
                              for name, member in parts.items() if name not in PARTS]
        for member in self.sorted_members(parts.get(PARTS[0])):
            self.configure(member)
        for member in self.sorted_members(parts.get(PARTS[1])):
            if not isinstance(member.value.value, str):
                raise self.form(member.name.value, member.value, "a rule names a configuration or a leaf by a text", ['write "PATH": "NAME"'])
            self.rules.rules.append(Rule(member.name, member.value))
        return self.rules

    def last_of(self, object_: Value) -> Dict[str, Member]:
        """The members of an object, the last of each name."""
        return {member.name.value: member for member in members(self.text, object_)}

    def sorted_members(self, member: Optional[Member]) -> List[Member]:
        """The members of the object that is a member's value, by the bytes of their names."""
        found = {} if member is None else self.last_of(member.value)
        return [found[name] for name in sorted(found, key=str.encode)]

    def form(self, name: str, value: Value, message: str, helps: List[str]) -> Finding:
        """That a part has not its form."""
        return Finding(f"Form {quoted(name)}", value.span(self.source), f"{message} (Form {quoted(name)})", helps)

    def configure(self, member: Member) -> None:
        """Adds a configuration. Raises its first fault."""
        name = member.name.value
        if not isinstance(member.value.value, dict):
            raise self.form(name, member.value, f"the configuration {name} has not its form", ['write { "return_status": "SUCCESS" }'])
        configuration = Configuration(member.name, self.last_of(member.value))
        self.check_members(configuration, member.value)
        script = configuration.members.get("post_script")
        fault = fault_of(script.value.value.encode()) if script is not None else None
        if script is not None and fault is not None:
            words = f"BadScript {quoted(name)} {fault.words()}"
            raise Finding(words, script.value.span(self.source), f"post_script of {name}: {fault.message} ({words})", [fault.help])
        self.rules.configurations[name] = configuration
        self.rules.unread += [(unread, self.meant_member(configuration, unread)) for key, unread in configuration.members.items()
                              if key not in MEMBERS]

    def check_members(self, configuration: Configuration, value: Value) -> None:
        """Raises where a member of a configuration is missing or has not its form."""
        name = configuration.name.value
        status = configuration.members.get("return_status")
        if status is None:
            near = [line for key in configuration.members for line in meant(key, MEMBERS[:1])]
            raise self.form(name, value, f"the configuration {name} has no return_status", near + ['write "return_status": "SUCCESS", or "FAILURE"'])
        if status.value.value not in STATUSES:
            helps = meant(status.value.value, STATUSES) if isinstance(status.value.value, str) else []
            raise self.form(name, status.value, f"return_status of {name} is neither SUCCESS nor FAILURE", helps)
        delay, script = configuration.members.get("async_delay"), configuration.members.get("post_script")
        if delay is not None and not is_delay(delay.value.value, self.text[delay.value.start:delay.value.end]):
            raise self.form(name, delay.value, f"async_delay of {name} is no number of milliseconds",
                            [f"it is 0 to {MOST_DELAY}, in digits alone"])
        if script is not None and not isinstance(script.value.value, str):
            raise self.form(name, script.value, f"post_script of {name} is no text", ['write "post_script": "key := 1"'])

    def meant_member(self, configuration: Configuration, member: Member) -> List[str]:
        """What may be meant by a member that a configuration does not read."""
        name, status = member.name.value, configuration.get("return_status", "")
        own = {"success_script": "SUCCESS", "failure_script": "FAILURE"}
        if name in own and own[name] == status:
            return [f"it would run after each {status}, the only answer: write it into post_script"]
        if name in own:
            return [f"its answer is always {status}, so it would never run"]
        return meant(name, MEMBERS) or [f"the members that are read are {said(MEMBERS)}"]


def is_delay(value: Any, text: str) -> bool:
    """Whether this is a whole number of milliseconds, within the range, and written in digits alone."""
    return type(value) is int and text.isdigit() and 0 <= value <= MOST_DELAY
