#!/usr/bin/env python3
"""Records from plain text, and plain text from records. Needs Python 3.9 or later, and nothing else.

    python3 examples/records.py write <TEXT >RECORDS
    python3 examples/records.py show <RECORDS >TEXT
    python3 examples/records.py take block <RECORDS >RECORDS

The last one writes the records of one kind, here the blocks, as they are, and leaves out all others. This is the front
of the package in python/: the head of python/speedex/text.py explains the text, line by line. The package is written
apart from the program, from docs/FORMATS.md and docs/RULES.md, and nothing of it is proved.

`write` tests neither order nor ranges, so it can make wrong records on purpose. It tests every word, though: a line
with a word or a number too many, too few or at another place is refused, and named. What a text leaves out it fills in.
`show` shows wrong records too, as long as their bytes have the structure of records.
"""

import os
import pathlib
import sys

sys.path.insert(0, str(pathlib.Path(__file__).resolve().parent.parent / "python"))

from speedex import errors, reading, text  # noqa: E402

KINDS = {"state": 1, "candidates": 2, "block": 3, "outcomes": 4, "script": 5, "proof": 6}


def show(data):
    for record in reading.records_of(data, strict=False):
        print(*text.lines_of(record), sep="\n")


def take(data, tag):
    """The records of this tag."""
    at = 0
    while at < len(data):
        begin, at = at, reading.frame_at(data, at)[1]
        if data[begin] == tag:
            yield data[begin:at]


def main(words):
    if words == ["write"]:
        sys.stdout.buffer.write(text.write(sys.stdin))
    elif words == ["show"]:
        show(sys.stdin.buffer.read())
    elif len(words) == 2 and words[0] == "take" and words[1] in KINDS:
        sys.stdout.buffer.write(b"".join(take(sys.stdin.buffer.read(), KINDS[words[1]])))
    else:
        sys.exit("usage: python3 records.py write <TEXT >RECORDS, show <RECORDS >TEXT, or take KIND <RECORDS >RECORDS")
    sys.stdout.flush()


if __name__ == "__main__":
    try:
        main(sys.argv[1:])
    except errors.SpeedexError as error:
        sys.stdout.flush()
        sys.exit(f"records: {error}")
    except BrokenPipeError:
        # whoever reads the output wants no more of it
        os.dup2(os.open(os.devnull, os.O_WRONLY), sys.stdout.fileno())
