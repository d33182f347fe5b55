"""Holds objects against docs/abt.schema.json, by as much of JSON Schema (2020-12) as that file uses: a keyword that isn't known here is a
fault of the file.
"""
import json
import re

from harness import ROOT

SCHEMA = json.loads((ROOT / "docs" / "abt.schema.json").read_text())
TYPES = {"object": dict, "array": list, "string": str, "integer": int, "null": type(None)}
# What says nothing of a value.
BESIDE = {"$schema", "$comment", "$defs", "title"}


class Misfit(ValueError):
    """A value that isn't as a schema says."""


def wants(holds, told):
    if not holds:
        raise Misfit(told)


def equal(value, wanted):
    """Whether two values are one in JSON, where true isn't 1."""
    return isinstance(value, bool) == isinstance(wanted, bool) and value == wanted


def fits(schema, value):
    try:
        looked_at(schema, value)
    except Misfit:
        return False
    return True


def looked_at(schema, value):
    """The members of a value that a schema speaks of; the value has to be as it says."""
    members = set()
    # What speaks of all other members comes behind what speaks of some.
    for keyword, wanted in sorted(schema.items(), key=lambda it: it[0] in ("additionalProperties", "unevaluatedProperties")):
        if keyword not in BESIDE:
            members |= looked_at_by(keyword, wanted, value, members)
    return members


def looked_at_by(keyword, wanted, value, members):
    """The members of a value that one keyword speaks of, behind others that spoke of some."""
    match keyword:
        case "$ref":
            return looked_at(SCHEMA["$defs"][wanted.removeprefix("#/$defs/")], value)
        case "allOf":
            return set().union(*(looked_at(each, value) for each in wanted))
        case "oneOf":
            found = [each for each in wanted if fits(each, value)]
            wants(len(found) == 1, f"{value} fits {len(found)} of {[each.get('$ref', 'some') for each in wanted]}")
            return looked_at(found[0], value)
        case "properties":
            for name in wanted.keys() & value.keys():
                looked_at(wanted[name], value[name])
            return wanted.keys() & value.keys()
        case "items":
            for each in value:
                looked_at(wanted, each)
        case "additionalProperties" | "unevaluatedProperties":
            wants(wanted is False and not value.keys() - members, f"{value} has {value.keys() - members} too")
        case _:
            wants(is_so(keyword, wanted, value), f"{value} isn't {keyword} {wanted}")
    return set()


def is_so(keyword, wanted, value):
    """Whether a value is as a keyword says that speaks of no members."""
    match keyword:
        case "type":
            return isinstance(value, TYPES[wanted]) and not isinstance(value, bool)
        case "enum":
            return any(equal(value, each) for each in wanted)
        case "const":
            return equal(value, wanted)
        case "minimum":
            return value >= wanted
        case "maximum":
            return value <= wanted
        case "pattern":
            return re.search(wanted, value) is not None
        case "required":
            return all(name in value for name in wanted)
        case "dependentRequired":
            return all(other in value for name, others in wanted.items() if name in value for other in others)
        case "maxProperties":
            return len(value) <= wanted
    raise SystemExit(f"docs/abt.schema.json: {keyword} isn't known to tests/json_schema.py")


def kind_of(command, value):
    """Of which kind an object of a command is; it has to be of one alone, of those of the command and of all."""
    looked_at(SCHEMA, value)
    names = [each["$ref"].removeprefix("#/$defs/") for each in SCHEMA["$defs"][f"of_{command}"]["oneOf"]]
    found = [name for name in names if fits({"$ref": f"#/$defs/{name}"}, value)]
    wants(len(found) == 1, f"{value} of {command} is {found}")
    return found[0]


def says_great_numbers(value):
    """Demands that each member above 2^53 has its digits as a text in a member of its own, and no other has; lists have numbers alone."""
    if isinstance(value, list):
        for each in value:
            says_great_numbers(each)
    if isinstance(value, dict):
        wanted = {f"{name}_text": str(number) for name, number in value.items() if isinstance(number, int) and number > 2**53}
        wants(wanted == {name: text for name, text in value.items() if name.endswith("_text")}, f"{value} isn't to have {wanted}")
        for each in value.values():
            says_great_numbers(each)


def spoilt(value):
    """An object with a member more, or with a member of another type, each in its turn: none is of a kind."""
    yield {**value, "other": 1}
    for name in value:
        yield {**value, name: {"other": 1}}
        yield {**value, name: True if value[name] is not True else 1}


class Kinds:
    """The kinds of objects that were met."""

    def __init__(self, *commands):
        self.commands, self.met = commands, set()

    def look(self, command, objects):
        for each in objects:
            kind = kind_of(command, each)
            # Entries of journals have the members that journals have.
            if command != "audit":
                says_great_numbers(each)
            if kind not in self.met:
                self.met.add(kind)
                for other in spoilt(each):
                    wants(not fits(SCHEMA, other), f"{other} fits, which no command says")

    def missing(self):
        """The kinds of these commands of which no object was met."""
        wanted = {each["$ref"].removeprefix("#/$defs/") for command in self.commands for each in SCHEMA["$defs"][f"of_{command}"]["oneOf"]}
        return sorted(wanted - self.met)
