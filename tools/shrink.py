"""Makes a scenario small, as long as it keeps what makes it worth looking at."""
from dataclasses import replace


# The events that name what an ask or an emission numbered, and the word in which they do.
NAMED = {
    "ask": {"request": 3, "turn": 2, "yes": 3, "no": 3, "told-yes": 2, "told-no": 2},
    "emit": {"arrive": 2},
}


def without_number(scenario, at):
    """The scenario without an ask or an emission, the later requests or cells of its connection numbered anew; None of other events."""
    verb, *words = scenario.events[at].split(" ")
    if verb not in NAMED or not words:
        return None
    events = list(scenario.events[:at])
    for event in scenario.events[at + 1 :]:
        named = event.split(" ")
        place = NAMED[verb].get(named[0], len(named))
        if place < len(named) and named[1] == words[0] and named[place].isdecimal():
            named[place] = str(max(0, int(named[place]) - 1))
        events.append(" ".join(named))
    return replace(scenario, events=tuple(events))


def without_connection(scenario, at):
    """The scenario without a connection; its events go too, and those of later ones name them anew."""
    events = []
    for event in scenario.events:
        words = event.split(" ")
        conn = int(words[1]) if words[0] != "capacity" and len(words) > 1 and words[1].isdecimal() else -1
        if conn == at:
            continue
        if at < conn < len(scenario.connections):
            words[1] = str(conn - 1)
        events.append(" ".join(words))
    conns = scenario.connections[:at] + scenario.connections[at + 1 :]
    return replace(scenario, connections=conns, events=tuple(events))


def without_connections(scenario, begin, end):
    for at in reversed(range(begin, min(end, len(scenario.connections)))):
        scenario = without_connection(scenario, at)
    return scenario


def without_port(scenario, at):
    """The scenario without a port, whose hops and capacities go too."""
    conns, events = [], []
    for conn in scenario.connections:
        if not isinstance(conn.path, tuple):
            return None
        conns.append(replace(conn, path=tuple(port - (port > at) for port in conn.path if port != at)))
    for event in scenario.events:
        words = event.split(" ")
        port = int(words[1]) if words[0] == "capacity" and len(words) > 1 and words[1].isdecimal() else -1
        if port == at:
            continue
        if port > at:
            words[1] = str(port - 1)
        events.append(" ".join(words))
    return replace(scenario, ports=scenario.ports[:at] + scenario.ports[at + 1 :], connections=tuple(conns), events=tuple(events))


def pieces(count):
    """The beginning and end of each half of so many things, of each quarter, and so on to single ones."""
    size = count
    while size:
        yield from ((begin, begin + size) for begin in reversed(range(0, count, size)))
        size //= 2


def simpler(scenario):
    """Scenarios that are a little simpler than this one."""
    for begin, end in pieces(len(scenario.connections)):
        yield without_connections(scenario, begin, end)
    for begin, end in pieces(len(scenario.events)):
        yield replace(scenario, events=scenario.events[:begin] + scenario.events[end:])
    yield from filter(None, (without_number(scenario, at) for at in range(len(scenario.events))))
    if isinstance(scenario.ports, tuple):
        yield from filter(None, (without_port(scenario, at) for at in range(len(scenario.ports))))
    if scenario.spelling is not None:
        yield replace(scenario, spelling=None)
    if scenario.head:
        yield replace(scenario, head="")
    for at, conn in enumerate(scenario.connections):
        for plain in ({"script": ()}, {"delay": 0}, {"tau": 0}):
            changed = replace(conn, **plain)
            if changed != conn:
                yield replace(scenario, connections=scenario.connections[:at] + (changed,) + scenario.connections[at + 1 :])


def shrunk(scenario, differs, most):
    """The scenario made simpler while it differs, after at most so many tries."""
    left = most
    is_smaller = True
    while is_smaller:
        is_smaller = False
        for candidate in simpler(scenario):
            if left == 0:
                return scenario
            left -= 1
            if differs(candidate):
                scenario, is_smaller = candidate, True
                break
    return scenario
