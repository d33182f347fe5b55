"""Scenarios from text, after docs/FORMATS.md, "Scenario", "Scripts" and "Operator"."""
import re
import tomllib

LONGEST = 16_777_216
PAST_WHOLE = 2**63
CONN_NUMBERS = 2**16
PORT_NUMBERS = 2**16
REQUEST_NUMBERS = 2**32
PLANS = {(): "works", ("before",): "before", ("after",): "after"}


class Fault(Exception):
    """Why a text is no scenario, as the program prints it."""


def units(code):
    """The units of 1/512 cell per second of a rate code."""
    exponent, mantissa = (code >> 9) & 31, code & 511
    return (512 + mantissa) * 2**exponent if (code >> 14) & 1 else 0


def whole(value, key, limit):
    if type(value) is not int or not 0 <= value < limit:
        raise Fault(f"WrongType {key}")
    return value


def needed(table, key):
    if key not in table:
        raise Fault(f"MissingKey {key}")
    return table[key]


def wholes(value, key, limit):
    if type(value) is not list:
        raise Fault(f"WrongType {key}")
    return [whole(one, key, limit) for one in value]


def texts(table, key):
    value = table.get(key, [])
    if type(value) is not list or any(type(one) is not str for one in value):
        raise Fault(f"WrongType {key}")
    return value


def connection(table):
    vpi = whole(needed(table, "vpi"), "vpi", 4096)
    vci = whole(needed(table, "vci"), "vci", 65536)
    return {
        "vc": (vpi, vci),
        "path": wholes(needed(table, "path"), "path", 65536),
        "delay": whole(needed(table, "delay"), "delay", PAST_WHOLE),
        "tau": whole(needed(table, "tau"), "tau", PAST_WHOLE),
        "script": texts(table, "script"),
    }


def number(word, limit=10**19):
    if not re.fullmatch("[0-9]{1,19}", word) or int(word) >= limit:
        raise ValueError(word)
    return int(word)


def rate(word):
    if not re.fullmatch("[0-9a-fA-F]{4}", word):
        raise ValueError(word)
    return units(int(word, 16))


def event(text):
    """The event of a text as a tuple, or None."""
    verb, *words = text.split(" ")
    conn = lambda: number(words[0], CONN_NUMBERS)
    hop = lambda: number(words[1], CONN_NUMBERS)
    seq = lambda: number(words[-1], REQUEST_NUMBERS)
    try:
        match verb, len(words):
            case "start" | "emit", 2:
                return verb, conn(), number(words[1])
            case "ask", 2 | 3 if tuple(words[2:]) in PLANS:
                return verb, conn(), rate(words[1]), PLANS[tuple(words[2:])]
            case "again" | "crash", 1:
                return verb, conn()
            case "arrive", 3:
                return verb, conn(), number(words[1]), number(words[2])
            case "request", 3:
                return verb, conn(), hop(), seq()
            case "turn", 2:
                return verb, conn(), seq()
            case "yes" | "no", 3:
                return "answer", conn(), hop(), seq(), verb == "yes"
            case "told-yes" | "told-no", 2:
                return "told", conn(), seq(), verb == "told-yes"
            case "capacity", 2:
                return verb, number(words[0], PORT_NUMBERS), number(words[1])
    except ValueError:
        pass
    return None


def is_command(text):
    verb, *words = text.split(" ")
    try:
        match verb, len(words):
            case "start", 1:
                number(words[0])
            case "ask", 1 | 2 if tuple(words[1:]) in PLANS:
                rate(words[0])
            case "again" | "crash", 0:
                pass
            case "emit", 2:
                number(words[0])
                if words[1] != "lost":
                    number(words[1])
            case "listen", 1:
                number(words[0], 2**32)
            case _:
                return False
    except ValueError:
        return False
    return True


def operation(text):
    """The port and the capacity of an operator's text, or None."""
    verb, *words = text.split(" ")
    try:
        if verb == "capacity" and len(words) == 2:
            return number(words[0], PORT_NUMBERS), number(words[1])
    except ValueError:
        pass
    return None


def net_fault(ports, conns):
    """The first fault of ports and connections, the name before the connection, or None."""
    by_name = {
        "NoPort": lambda at, conn: any(port >= len(ports) for port in conn["path"]),
        "PathLength": lambda at, conn: not 1 <= len(conn["path"]) <= 16,
        "PathRepeat": lambda at, conn: len(set(conn["path"])) < len(conn["path"]),
        "VcRepeat": lambda at, conn: any(other["vc"] == conn["vc"] for other in conns[:at]),
    }
    for name, applies in by_name.items():
        for at, conn in enumerate(conns):
            if applies(at, conn):
                return f"{name} {at}"
    is_past = len(ports) > 256 or len(conns) > 1024 or any(capacity > 2**60 for capacity in ports)
    if is_past or any(conn["tau"] > 10**12 or conn["delay"] > 10**13 for conn in conns):
        return "Limit"
    return None


def has_great_number(value):
    """Whether a value has a number in it that TOML needs no reader to take: those of Python's have any number of digits."""
    match value:
        case dict():
            return any(has_great_number(one) for one in value.values())
        case list():
            return any(has_great_number(one) for one in value)
    return type(value) is int and not -PAST_WHOLE <= value < PAST_WHOLE


def document(octets):
    if len(octets) > LONGEST:
        raise Fault("TooLong")
    try:
        table = tomllib.loads(octets.decode("utf-8").removeprefix("\ufeff"))
    except UnicodeDecodeError:
        raise Fault("NotUtf8") from None
    except tomllib.TOMLDecodeError:
        raise Fault("Toml") from None
    if has_great_number(table):
        raise Fault("Toml")
    return table


def read(octets):
    """The ports, the connections, the events and the operations of a scenario; its first fault is raised."""
    table = document(octets)
    ports = wholes(needed(table, "ports"), "ports", PAST_WHOLE)
    tables = table.get("connection", [])
    if type(tables) is not list or any(type(one) is not dict for one in tables):
        raise Fault("WrongType connection")
    conns = [connection(one) for one in tables]
    event_texts = texts(table, "events")
    operation_texts = texts(table, "operator")
    fault = net_fault(ports, conns)
    if fault:
        raise Fault(f"Net {fault}")
    events = [event(text) for text in event_texts]
    if None in events:
        raise Fault(f"EventText {events.index(None) + 1}")
    for at, conn in enumerate(conns):
        for count, text in enumerate(conn["script"], 1):
            if not is_command(text):
                raise Fault(f"ScriptText {at} {count}")
    operations = [operation(text) for text in operation_texts]
    if None in operations:
        raise Fault(f"OperatorText {operations.index(None) + 1}")
    return ports, conns, events, operations
