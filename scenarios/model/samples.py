#!/usr/bin/env python3
"""What each sample of scenarios/ has to print, as the model has it.

usage: samples.py write    makes NAME.toml.stdout, and NAME.toml.stderr and NAME.toml.status where there is something to say
       samples.py          says where these files aren't as the model has them
"""
import sys
from pathlib import Path

from model import run
from reading import read

FOLDER = Path(__file__).resolve().parent.parent


def run_in_threads(octets):
    """What `abt threads` has to print: whatever the order of the threads, the three lines, unless a jitter is above its tau or the
    operator's list names a port that isn't there.
    """
    status, output, told = run(octets)
    if status:
        return status, output, told
    ports, conns, _, operations = read(octets)
    for conn in conns:
        for command in conn["script"]:
            words = command.split(" ")
            if words[0] == "emit" and words[2] != "lost" and int(words[2]) > conn["tau"]:
                return 1, "", "fault: Scripts\n"
    if any(port >= len(ports) for port, _ in operations):
        return 1, "", "fault: Operator\n"
    return 0, "gathered\nwoven\nsafe\n", ""


def expected(sample):
    """The text of each file that stands beside a sample, or None where that file isn't to be there."""
    args = sample.with_name(sample.name + ".args")
    is_threads = args.is_file() and args.read_text().startswith("threads\n")
    status, output, told = (run_in_threads if is_threads else run)(sample.read_bytes())
    return {".stdout": output, ".stderr": told or None, ".status": f"{status}\n" if status else None}


def main(is_written):
    samples = sorted(FOLDER.glob("*.toml"))
    differing = []
    for sample in samples:
        for suffix, text in expected(sample).items():
            beside = sample.with_name(sample.name + suffix)
            if (beside.read_text() if beside.is_file() else None) == text:
                continue
            differing.append(beside.name)
            if is_written and text is None:
                beside.unlink()
            elif is_written:
                beside.write_text(text)
    for name in differing:
        print(f"model: {name} {'was written' if is_written else 'is not as the model has it'}")
    print(f"model: {len(samples)} samples, {len(differing)} files {'written' if is_written else 'differ'}")
    sys.exit(1 if differing and not is_written else 0)


if __name__ == "__main__":
    main(sys.argv[1:] == ["write"])
