"""A scenario as `tools/differential` draws it, and its text, after docs/FORMATS.md, "Scenario"."""
from dataclasses import dataclass
from random import Random


@dataclass(frozen=True)
class Connection:
    """Each value stands in the text as it is written here: a number, a text of TOML, or None where the key is missing."""

    vpi: object
    vci: object
    path: object
    delay: object
    tau: object
    script: tuple = ()


@dataclass(frozen=True)
class Scenario:
    ports: object
    connections: tuple
    events: tuple
    # By what numbers are spelled in the other ways that TOML has, or None.
    spelling: int | None = None
    # What stands before all else.
    head: str = ""

    def octets(self):
        spelled = speller(self.spelling)
        lines = [self.head, *line("ports", self.ports, spelled)]
        lines += ["events = [\n", *(f'"{event}",\n' for event in self.events), "]\n"]
        for conn in self.connections:
            lines.append("[[connection]]\n")
            for key in ("vpi", "vci", "path", "delay", "tau"):
                lines += line(key, getattr(conn, key), spelled)
            if conn.script:
                lines.append(f"script = {list(conn.script)}\n")
        return "".join(lines).encode(errors="surrogateescape")


def line(key, value, spelled):
    """The line of a key, if it has one."""
    match value:
        case None:
            return []
        case int():
            return [f"{key} = {spelled(value)}\n"]
        case str():
            return [f"{key} = {value}\n"]
    return [f"{key} = [{', '.join(spelled(number) for number in value)}]\n"]


def speller(seed):
    """How a number is written: in plain digits, or now and then in another way of TOML's."""
    chosen = Random(seed)

    def spelled(number):
        if seed is None or number < 0 or chosen.random() < 0.5:
            return str(number)
        return chosen.choice([f"+{number}", f"{number:#x}", f"{number:#o}", f"{number:#b}", f"{number:_}"])

    return spelled
