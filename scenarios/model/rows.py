#!/usr/bin/env python3
"""Stories whose outcomes were worked out by hand, against the model: so the model says what the rules say."""
from model import World
from reading import event

SECOND = 10**12


def conn(vci, path, delay=1000, tau=200):
    return {"vc": (1, vci), "path": path, "delay": delay, "tau": tau}


ONE = [512000], [conn(100, [0])]
TWO = [512000, 512000], [conn(100, [1]), conn(101, [0, 1])]
FAST = [2196875771904], [conn(100, [0], tau=1000)]


def story(text):
    """Lines of `event -> outcome`."""
    return [line.split(" -> ") for line in text.strip().split("\n")]


def check(net, lines, end):
    report = World(*net).report([event(text) for text, _ in lines]).rstrip("\n").split("\n")
    expected = [f"{number} {outcome}" for number, (_, outcome) in enumerate(lines, 1)]
    assert report == [f"events {len(lines)}"] + expected + end.strip().split("\n"), "\n".join(report)


SHARED = story("""
start 0 0 -> started
start 1 0 -> started
ask 0 5258 -> asked 1 0000 5258
request 0 1 1 -> passed
ask 1 5120 -> asked 1 0000 5120
request 1 1 1 -> passed
turn 1 1 -> not-enabled NotSent
request 1 2 1 -> passed
turn 1 1 -> turned
yes 1 2 1 -> passed
yes 1 1 1 -> passed
told-yes 1 1 -> told Raised
ask 1 5258 -> asked 2 5120 5258
request 1 1 2 -> passed
request 1 2 2 -> refuses
no 1 1 2 -> passed
told-no 1 2 -> told Refused
""")

DECREASE = story("""
ask 0 0000 -> asked 2 0000 0000
request 0 1 2 -> passed
request 1 1 2 -> refuses
request 1 2 2 -> refuses
""")

GRANTED = story("""
start 0 0 -> started
ask 0 5120 -> asked 1 0000 5120
request 0 1 1 -> passed
turn 0 1 -> turned
yes 0 1 1 -> passed
""")

GIVEN_UP = story("""
ask 0 5258 -> asked 2 0000 5258
told-yes 0 1 -> told Ignored
""")

RESTARTED = story("""
crash 0 -> crashed
ask 0 5120 -> not-enabled Down
start 0 5 -> started
told-yes 0 1 -> told Ignored
ask 0 5258 -> asked 65 0000 5258
told-yes 0 1 -> told Ignored
""")

RAISED = story("""
start 0 5000000000000 -> started
ask 0 53e8 -> asked 1 0000 53e8
request 0 1 1 -> passed
turn 0 1 -> turned
yes 0 1 1 -> passed
told-yes 0 1 -> told Raised
emit 0 5900000000000 -> refused TooSoon 6000000000000
emit 0 6000000000000 -> emitted 0 6001000000000
""")

CELLS = story("""
emit 0 6001000000000 -> emitted 1 6002000000000
arrive 0 0 6000000001200 -> arrived Conforming
arrive 0 1 6001000001000 -> arrived Conforming
""")

FENCED = story("""
ask 0 5120 -> asked 2 5120 5120
request 0 1 2 -> passed
arrive 0 0 6000000001000 -> not-enabled Fenced
emit 0 6001000000000 -> emitted 1 6003500000000
arrive 0 1 6001000001201 -> not-enabled Delay
arrive 0 1 6001000000999 -> not-enabled Delay
arrive 0 1 6001000001200 -> arrived Conforming
arrive 0 1 6001000001200 -> not-enabled Fenced
arrive 0 2 6003500001000 -> not-enabled NotSent
""")

KEPT_AT_ONCE = story("""
start 0 0 -> started
ask 0 5120 after -> refused Keep
ask 0 5120 -> asked 1 0000 5120
""")

KEPT_BEFORE_A_CRASH = story("""
start 0 0 -> started
ask 0 5120 after -> refused Keep
crash 0 -> crashed
start 0 0 -> started
ask 0 5120 -> asked 65 0000 5120
""")

STRIDE_AT_ONCE = story("""
start 0 0 -> started
ask 0 5120 -> asked 1 0000 5120
ask 0 5258 before -> asked 2 0000 5258
crash 0 -> crashed
start 0 0 -> started
ask 0 5120 -> asked 65 0000 5120
""")

# A source of 1,000 cells per second, which asks for that 64 times more: the last of these keeps 128 and a millisecond.
ASKING_ON = story("""
start 0 0 -> started
ask 0 53e8 -> asked 1 0000 53e8
request 0 1 1 -> passed
turn 0 1 -> turned
yes 0 1 1 -> passed
told-yes 0 1 -> told Raised
emit 0 1000000000000 -> emitted 0 1001000000000
arrive 0 0 1000000001200 -> arrived Conforming
""") + [["ask 0 53e8", f"asked {seq} 53e8 53e8"] for seq in range(2, 66)]

SHORTER_HOLD_OFF = story("""
crash 0 -> crashed
start 0 1000000000000 -> started
ask 0 53e8 -> asked 129 0000 53e8
request 0 1 129 -> passed
turn 0 129 -> turned
yes 0 1 129 -> passed
told-yes 0 129 -> told Raised
emit 0 1000999999999 -> refused TooSoon 1001000000000
emit 0 1001000000000 -> emitted 1 1002000000000
arrive 0 1 1001000001000 -> arrived Conforming
""")

GREATER_NEED = story("""
ask 0 53e8 before -> asked 66 53e8 53e8
ask 0 5120 before -> refused Keep
ask 0 5120 -> asked 67 5120 5120
crash 0 -> crashed
start 0 1000000000000 -> started
ask 0 5120 -> asked 131 0000 5120
""")

NOT_KEPT = story("""
start 0 0 -> started
ask 0 5120 before -> refused Keep
crash 0 -> crashed
start 0 0 -> started
ask 0 5120 -> asked 1 0000 5120
""")

CAUSES = story("""
emit 0 5 -> not-enabled Down
start 0 9 -> started
start 0 9 -> not-enabled Running
again 0 -> not-enabled NotAsking
emit 0 8 -> not-enabled ClockBack
emit 0 9 -> refused Zero
start 7 0 -> not-enabled Unknown
request 0 2 1 -> not-enabled Unknown
request 0 1 1 -> not-enabled NotSent
""")

GREATEST = story("""
start 0 0 -> started
ask 0 7fff -> asked 1 0000 7fff
request 0 1 1 -> passed
turn 0 1 -> turned
yes 0 1 1 -> passed
told-yes 0 1 -> told Raised
emit 0 1000000000000 -> emitted 0 1000000000234
emit 0 1000000000234 -> emitted 1 1000000000468
arrive 0 0 1000000002000 -> arrived Conforming
arrive 0 1 1000000001999 -> not-enabled ClockBack
arrive 0 1 1000000002000 -> arrived Conforming
""")

SHRINKING = story("""
start 0 0 -> started
ask 0 5258 -> asked 1 0000 5258
request 0 1 1 -> passed
capacity 0 307199 -> refused BelowSum
capacity 0 307200 -> set
ask 0 53e8 -> asked 2 0000 53e8
request 0 1 2 -> refuses
request 0 1 1 -> dropped Stale
capacity 0 0 -> set
capacity 0 1152921504606846977 -> refused AboveLimit
capacity 1 0 -> not-enabled Unknown
""")

IDLE = "connection 0 rate 0000 held 0000\nport 0 total 0 capacity 512000\nsafe"
HELD = "connection 0 rate 0000 held 5120\nport 0 total 204800 capacity 512000\nsafe"


def main():
    check(TWO, SHARED, """
connection 0 rate 0000 held 5258
connection 1 rate 5120 held 5120 5120
port 0 total 204800 capacity 512000
port 1 total 512000 capacity 512000
safe""")
    check(TWO, SHARED + DECREASE, """
connection 0 rate 0000 held 0000
connection 1 rate 5120 held 5120 5120
port 0 total 204800 capacity 512000
port 1 total 204800 capacity 512000
safe""")
    check(ONE, GRANTED + GIVEN_UP, HELD)
    check(ONE, GRANTED + RESTARTED, HELD)
    check(ONE, RAISED + CELLS, "connection 0 rate 53e8 held 53e8\nport 0 total 512000 capacity 512000\nsafe")
    check(ONE, RAISED + FENCED, "connection 0 rate 5120 held 5120\nport 0 total 204800 capacity 512000\nsafe")
    full = "held 53e8\nport 0 total 512000 capacity 512000\nsafe"
    check(ONE, ASKING_ON + SHORTER_HOLD_OFF, f"connection 0 rate 53e8 {full}")
    check(ONE, ASKING_ON + GREATER_NEED, f"connection 0 rate 0000 {full}")
    for lines in KEPT_AT_ONCE, KEPT_BEFORE_A_CRASH, STRIDE_AT_ONCE, NOT_KEPT, CAUSES:
        check(ONE, lines, IDLE)
    check(ONE, story(f"start 0 {2**61 - SECOND + 1} -> refused TimeRange"), IDLE)
    check(FAST, GREATEST, "connection 0 rate 7fff held 7fff\nport 0 total 2196875771904 capacity 2196875771904\nsafe")
    check(ONE, SHRINKING, "connection 0 rate 0000 held 0000\nport 0 total 0 capacity 0\nsafe")
    print("model: the worked stories come out as they were worked")


if __name__ == "__main__":
    main()
