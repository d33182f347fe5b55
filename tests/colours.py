"""The colours of a style sheet with a light and a dark scheme, and whether one can read them (tests/pictures.py)."""
import re

# The grounds of both schemes, and what is neither a word nor a line that tells something: the grid, patterns, and what lies below words.
LIGHT, DARK = "#fff", "#15181d"
MUTE = re.compile(r"line\.grid|#p\d .*|\.(event|stuck)(:hover|\.now) rect\.row")
# The least contrast, as WCAG 2 wants it of words.
LEAST = 4.5


def luminance(colour):
    digits = colour[1:] if len(colour) == 7 else "".join(digit * 2 for digit in colour[1:])
    parts = [int(digits[at : at + 2], 16) / 255 for at in (0, 2, 4)]
    red, green, blue = (part / 12.92 if part <= 0.04045 else ((part + 0.055) / 1.055) ** 2.4 for part in parts)
    return 0.2126 * red + 0.7152 * green + 0.0722 * blue


def contrast(one, other):
    """The contrast of two colours, from 1 to 21, by WCAG 2."""
    darker, lighter = sorted((luminance(one), luminance(other)))
    return (lighter + 0.05) / (darker + 0.05)


def colours_of(rules):
    """The colours that rules give, by selector and property."""
    found = {}
    for selectors, body in re.findall(r"([^{}]+)\{([^{}]*)\}", rules):
        for selector in selectors.split(","):
            for name, colour in re.findall(r"(?<![-\w])(fill|stroke|background|color): (#[0-9a-f]+)", body):
                found[selector.strip(), name] = colour
    return found


def check_colours(style):
    """What tells something has enough contrast to the ground in both schemes; how many colours were measured. A rule of the dark scheme
    stands over that of the same selector, so that a colour for which it has none is measured on its ground too."""
    rules = re.fullmatch(r"(.*)@media screen and \(prefers-color-scheme: dark\) \{\n(.*?\n)\}\n(.*)", style, flags=re.S)
    light = colours_of(rules[1])
    dark = {**light, **colours_of(rules[2])}
    assert LIGHT not in dark.values(), ("the light ground in the dark scheme", [rule for rule in dark if dark[rule] == LIGHT])
    measured = 0
    for scheme, ground in (light, LIGHT), (dark, DARK):
        told = {rule: colour for rule, colour in scheme.items() if colour != ground and not MUTE.fullmatch(rule[0])}
        faint = {rule: round(contrast(colour, ground), 2) for rule, colour in told.items() if contrast(colour, ground) < LEAST}
        assert not faint, ("too little contrast", ground, faint)
        measured += len(told)
    return measured
