"""Random ports, connections and rates, near the limits of docs/RULES.md, "Limits", now and then."""
from dataclasses import dataclass

from rm_cells import units
from scenario_text import Connection

SECOND = 10**12
MOST_PORTS, MOST_CONNECTIONS, MOST_HOPS, MOST_CHANNELS = 256, 1024, 16, 4096 * 65536
MOST_CAPACITY, MOST_TAU, MOST_DELAY = 2**60, 10**12, 10**13
GREATEST_START = 2**61 - SECOND
EXTREME_CODES = (0x0000, 0x3FFF, 0x4000, 0x4001, 0x7FFE, 0x7FFF, 0x8000, 0xFFFF)


@dataclass(frozen=True)
class Net:
    ports: tuple
    connections: tuple
    # The rate codes for which sources ask.
    codes: tuple
    # Not far from the moment at which sources first start.
    beginning: int


def draw_codes(chosen):
    """Some rates of about one size, so that ports have room for some of them and not for all."""
    exponent = chosen.choice([0, 31, chosen.randrange(32)])
    codes = []
    for _ in range(chosen.randrange(2, 6)):
        near = min(max(exponent + chosen.randrange(-1, 2), 0), 31)
        mantissa = chosen.choice([0, 1, 511, chosen.randrange(512), chosen.randrange(512)])
        codes.append(0x4000 + near * 512 + mantissa)
    if chosen.random() < 0.5:
        codes.append(chosen.choice(EXTREME_CODES))
    return tuple(codes)


def draw_capacity(chosen, codes, sharing):
    """Room for some of the connections that share a port."""
    match chosen.randrange(10):
        case 0:
            return chosen.choice([0, 1, 511, 512, MOST_CAPACITY, MOST_CAPACITY - 1])
        case 1:
            return chosen.randrange(2 ** chosen.randrange(1, 61))
    room = sum(units(chosen.choice(codes)) for _ in range(chosen.randint(1, max(1, sharing))))
    return max(0, min(room + chosen.choice([0, 0, 0, -1, 1]), MOST_CAPACITY))


def draw_path(chosen, ports):
    longest = min(ports, MOST_HOPS)
    length = chosen.choice([1, min(2, longest), min(3, longest), chosen.randint(1, longest), chosen.randint(1, longest), longest])
    return tuple(chosen.sample(range(ports), length))


def draw_number(chosen, limit, common):
    """A number up to a limit: one of the common ones, one near the limit, or any of about some size."""
    match chosen.randrange(4):
        case 0:
            return limit - chosen.choice([0, 0, 1])
        case 1:
            return chosen.randrange(2 ** chosen.randrange(1, limit.bit_length()))
    return chosen.choice(common)


def draw_size(chosen):
    """How many connections: mostly few, since the model is slow, and now and then as many as there may be."""
    match chosen.randrange(100):
        case 0:
            return MOST_CONNECTIONS - chosen.choice([0, 0, 1])
        case 1 | 2:
            return chosen.randint(65, 512)
        case number if number < 13:
            return chosen.randint(17, 64)
        case number if number < 45:
            return chosen.randint(5, 16)
    return chosen.randint(1, 4)


def draw_channels(chosen, count):
    """As many different pairs of VPI and VCI."""
    numbers = set()
    while len(numbers) < count:
        numbers.add(chosen.choice([chosen.randrange(MOST_CHANNELS), chosen.randrange(MOST_CHANNELS), 0, MOST_CHANNELS - 1, 65535, 65536]))
    channels = [divmod(number, 65536) for number in sorted(numbers)]
    chosen.shuffle(channels)
    return channels


def draw_beginning(chosen):
    match chosen.randrange(8):
        case 0:
            return GREATEST_START - chosen.choice([0, 1, SECOND, chosen.randrange(3 * SECOND)])
        case 1:
            return chosen.randrange(GREATEST_START)
        case 2 | 3:
            return chosen.randrange(10**13)
    return 0


COMMANDS = ("start 0", "ask 5120", "ask 53E8 before", "ask 0000 after", "again", "crash", "emit 7 0", "emit 007 lost", "listen 4294967295")


def draw_net(chosen):
    codes = draw_codes(chosen)
    count = MOST_PORTS if chosen.random() < 0.01 else chosen.randint(1, chosen.choice([1, 2, 4, 16]))
    connections = []
    for vpi, vci in draw_channels(chosen, draw_size(chosen)):
        tau = draw_number(chosen, MOST_TAU, [0, 1, 200, 10**9])
        delay = draw_number(chosen, MOST_DELAY, [0, 1, 1000, 10**9])
        script = tuple(chosen.choices(COMMANDS, k=chosen.randrange(4))) if chosen.random() < 0.1 else ()
        connections.append(Connection(vpi, vci, draw_path(chosen, count), delay, tau, script))
    sharing = [sum(port in conn.path for conn in connections) for port in range(count)]
    ports = tuple(draw_capacity(chosen, codes, many) for many in sharing)
    return Net(ports, tuple(connections), codes, draw_beginning(chosen))
