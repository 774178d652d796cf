#!/usr/bin/env python3
"""Who traded how much: the fills of each block, from a state and the blocks on it. Needs Python 3.9 or later.

    python3 examples/fills.py <RECORDS

RECORDS is what `replay` reads: a state and then blocks, each of which may have outcomes after it. For each block the
script writes a line `block height H`, and a line for each offer that trades in it, in the order of a state's offers:

    fill SELL BUY limit L account ID seq S gives N gets M left R

The account gave N units of the asset SELL, and got M units of BUY. R units are left on offer; if R is 0, the offer is
gone. The three are whole units, and exact.

It is a front of the package in python/, which is written apart from the program, from docs/RULES.md, and of which
nothing is proved. A block that is not valid ends the script, and nothing of it is written.
`python3 -m speedex fills STATE BLOCK` there writes more of one block, as CSV or JSON.
"""
import os
import pathlib
import sys

sys.path.insert(0, str(pathlib.Path(__file__).resolve().parent.parent / "python"))

from speedex import errors, reading, records, rules  # noqa: E402


def report(data):
    """The lines of all blocks. Those of a block come once it is found to be valid."""
    state = None
    for record in reading.records_of(data):
        if isinstance(record, records.State) and state is None:
            state = record
        elif isinstance(record, records.Block) and state is not None:
            survey = rules.Survey(state, record)
            refusal = rules.refusal_of(survey)
            if refusal is not None:
                raise refusal
            yield f"block height {record.height}"
            for fill in survey.fills:
                offer = f"{fill.sell} {fill.buy} limit {fill.limit} account {fill.account} seq {fill.seq}"
                yield f"fill {offer} gives {fill.gives} gets {fill.gets} left {fill.stays}"
            state = survey.after
        elif not isinstance(record, records.Outcomes) or state is None:
            sys.exit(f"fills: a {type(record).__name__} may not come here; a state and then blocks are wanted")


def main():
    if sys.argv[1:]:
        sys.exit(__doc__)
    for line in report(sys.stdin.buffer.read()):
        print(line)
    sys.stdout.flush()


if __name__ == "__main__":
    try:
        main()
    except errors.SpeedexError as error:
        sys.stdout.flush()
        sys.exit(f"fills: {error}")
    except BrokenPipeError:
        # whoever reads the output wants no more of it
        os.dup2(os.open(os.devnull, os.O_WRONLY), sys.stdout.fileno())
