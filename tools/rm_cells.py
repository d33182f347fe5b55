"""RM cells of ABT/DT, after docs/FORMATS.md, "The RM cell", and rate codes, after docs/RULES.md, "Rates"."""
GENERATOR = 0x633


def check(bits, length):
    """CRC-10 of so many bits."""
    bits <<= 10
    for place in reversed(range(length)):
        if bits >> (place + 10) & 1:
            bits ^= GENERATOR << place
    return bits


def cell(vc, kind, seq, floor, ask, low=6 << 1, protocol=2, flipped=0):
    """A request, a yes or a no as hexadecimal digits; or a cell that has another payload type or loss priority, another protocol, or other
    bits in its seventh octet, under a right check."""
    vpi, vci = vc
    head = (vpi << 20 | vci << 4 | low).to_bytes(4, "big")
    flags = {"request": 0x04, "yes": 0x8C, "no": 0xAC}[kind] ^ flipped
    terms = ask.to_bytes(2, "big") + floor.to_bytes(2, "big") + bytes(6) + seq.to_bytes(4, "big")
    return (head + sealed(bytes([protocol, flags]) + terms + b"\x6a" * 30 + b"\0")).hex()


def sealed(payload):
    """A payload of 47 octets and a half, whose last two get the check."""
    bits = int.from_bytes(payload, "big") >> 2
    whole = int.from_bytes(payload, "big") >> 2 << 10 | check(bits, 374)
    return whole.to_bytes(48, "big")


def units(code):
    """The units of 1/512 cell per second of a rate code."""
    return (512 + code % 512) << (code >> 9) % 32 if code >> 14 & 1 else 0


def code_below(most):
    """The code of the greatest rate of at most so many units."""
    if most < 512:
        return 0
    exponent = min((most // 512).bit_length() - 1, 31)
    return 0x4000 + exponent * 512 + min((most >> exponent) - 512, 511)


def code_above(code):
    """The code of the least rate above that of a canonical code; the greatest has none, and gives itself."""
    return 0x4000 if code == 0 else min(code + 1, 0x7FFF)
