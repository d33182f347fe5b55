"""What is told of entries in no order: each of those at which a slow search ends, and what it waits for, by the facts of the slow model there
(docs/AUDITS.md, "What is told").
"""
from completing import CompletedSearch
from model import code


def seconds(moment):
    """A moment in seconds, as an exact decimal fraction."""
    whole, left = divmod(moment, 10**12)
    return f"{whole}.{left:012}".rstrip("0").rstrip(".")


def lying(conn, hops, fact):
    """Where the message lies that a fact sent, and the event that takes it on; None if it sent none."""
    match fact:
        case ("asked", seq, *_):
            return f"request {seq} lies at hop 1", f"request {conn} 1 {seq}"
        case ("passed", seq, hop) if hop == hops:
            return f"request {seq} lies at the end of the path", f"turn {conn} {seq}"
        case ("passed", seq, hop):
            return f"request {seq} lies at hop {hop + 1}", f"request {conn} {hop + 1} {seq}"
        case ("turned", seq):
            return f"yes {seq} lies at hop {hops}", f"yes {conn} {hops} {seq}"
        case ("back" | "shut" as kind, seq, hop):
            word = "yes" if kind == "back" else "no"
            if hop == 1:
                return f"{word} {seq} lies at its source", f"told-{word} {conn} {seq}"
            return f"{word} {seq} lies at hop {hop - 1}", f"{word} {conn} {hop - 1} {seq}"
    return None


class Waits:
    """The entries at which a log's journals are stuck, by a slow search."""

    def __init__(self, lines):
        self.search = CompletedSearch(lines)
        self.ends = self.search.run()

    def lines(self):
        return list(self.ends.values())

    def message(self, conn, seq, where):
        """A message waits to be where it is looked for. One that was sent anew somewhere may lie at any of its places, as others order it."""
        course = self.search.writer.world.courses[conn]
        sent = [fact for fact in course.facts if fact[1:2] == (seq,) and lying(conn, len(course.path), fact)]
        if not sent:
            return {f"why: waits for {where}: no message with number {seq} lies at any hop"}
        last = sent if len(set(sent)) < len(sent) else sent[-1:]
        said = (lying(conn, len(course.path), fact) for fact in last)
        return {f"why: waits for {where}: {lies}: `{event}` comes next" for lies, event in said}

    def source(self, conn, entry):
        if "did" in entry:
            told = entry["did"]
            word = "yes" if told["granted"] else "no"
            return self.message(conn, told["told"], f"{word} {told['told']} of connection {conn} at its source")
        place = entry["sent"] if "sent" in entry else entry["arrived"]["place"]
        port = self.search.conns[conn]["path"][0]
        spots = self.search.spots.get(("port", port), [])
        spot = f", 0:{spots[place]}" if place < len(spots) else ", which no text has"
        return {f"why: goes with step {place} of port {port}{spot}"}

    def cell(self, conn, port):
        course = self.search.writer.world.courses[conn]
        if course.path[0] != port:
            return {f"why: cells of connection {conn} come to the first port of its path, and not to port {port}"}
        fence, left = course.fence(), course.of("emitted")
        if fence == len(left):
            return {f"why: waits for cell {fence} of connection {conn}, which hasn't left"}
        first = left[fence][2] + course.delay
        window = f"from {seconds(first)} s to {seconds(first + course.tau)} s"
        return {f"why: of connection {conn} the oldest cell that can still come is {fence}, {window}"}

    def port(self, port, entry):
        (what, came), = entry["input"].items()
        conn = self.search.conn_of(came)
        if conn is None:
            return {f"why: no connection has the channel {came['vpi']}/{came['vci']}"}
        course = self.search.writer.world.courses[conn]
        if port not in course.path:
            return {f"why: the path of connection {conn} doesn't visit port {port}"}
        if what == "arrive":
            return self.cell(conn, port)
        seq, terms, hop = came["seq"], course.request(came["seq"]), course.path.index(port) + 1
        if terms is None:
            return {f"why: waits for request {seq} of connection {conn}, which its source hasn't asked"}
        floor, ask = map(code, terms[:2])
        if (came["floor"], came["ask"]) != (floor, ask):
            return {f"why: request {seq} of connection {conn} has the floor {floor} and asks for {ask}"}
        if what == "request" and hop == 1:
            return {f"why: waits for source {conn} to say that it was sent at place {entry['place']}"}
        word = "request" if what == "request" else "yes" if came["granted"] else "no"
        return self.message(conn, seq, f"{word} {seq} of connection {conn} at hop {hop}")

    def are(self, told):
        """Whether these lines are told of the entries, each with what it waits for."""
        left = list(told)
        for actor, line in self.ends.items():
            waits = (self.source if actor[0] == "source" else self.port)(actor[1], self.search.next(actor))
            entry, why, left = *(left + ["", ""])[:2], left[2:]
            if not entry.startswith(f"0:{line}: ") or why not in waits:
                return False
        return not left
