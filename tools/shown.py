"""Names and texts as a terminal shows them: what a reader doesn't see is a question mark, as in what the program tells of files
(crates/abt_files/specs/Shown.antt)."""
import argparse
import unicodedata

# What has no width, or turns the direction of what stands beside it.
UNSEEN = [0xAD, 0x61C, 0x180E, 0xFEFF, *range(0x200B, 0x2010), *range(0x2028, 0x202F), *range(0x2060, 0x2070), *range(0xFFF9, 0xFFFC)]
UNSEEN = {*UNSEEN, *range(0xE0000, 0xE1000)}


def letter(it):
    """A character as it is shown; what stands for an octet that is no UTF-8 is a question mark, too."""
    code = ord(it)
    is_no_character = 0xFDD0 <= code <= 0xFDEF or code % 65536 in (0xFFFE, 0xFFFF)
    return "?" if unicodedata.category(it) in ("Cc", "Cs") or code in UNSEEN or is_no_character else it


def shown(name):
    """A name on one line."""
    return "".join(map(letter, str(name)))


def shown_lines(text):
    """A text, of which the ends of lines are kept."""
    return "\n".join(map(shown, text.split("\n")))


class Reader(argparse.ArgumentParser):
    """A reader of words, which shows those that it refuses."""

    def error(self, message):
        super().error(shown(message))
