"""What the Python scripts here share. Each check writes a line that begins with `ok` or `not ok`, and why after it."""

import os
import pathlib
import re
import subprocess
import sys

TOP = pathlib.Path(__file__).resolve().parent.parent


class Checks:
    """Counts what fails; `end` gives the exit code."""

    def __init__(self):
        self.has_failed = False

    def check(self, what, faults):
        """One check, which fails if there are lines that say why."""
        faults = list(faults)
        print(f"{'not ok' if faults else 'ok'} {what}", flush=True)
        for line in faults[:20]:
            print(f"# {line[:300]}")
        if len(faults) > 20:
            print(f"# and {len(faults) - 20} more")
        self.has_failed = self.has_failed or bool(faults)

    def end(self):
        sys.stdout.flush()
        sys.exit(self.has_failed)


def find_program():
    """The program that stands for these sources, which is not built here, or another one that the caller names."""
    if "SPEEDEX_PROGRAM" in os.environ:
        return os.environ["SPEEDEX_PROGRAM"]
    done = subprocess.run([TOP / "bin/speedex", "--path"], capture_output=True, text=True)
    if done.returncode:
        sys.exit(done.stderr.strip())
    return done.stdout.strip()


def documents():
    """The documents that say what is so; the changelog says what was."""
    found = [*TOP.glob("*.md"), *TOP.glob("docs/*.md"), *TOP.glob("examples/**/README.md")]
    found += [TOP / folder / "README.md" for folder in ("release", "python", "deploy/replicated", "bench", "mutants")]
    return sorted(path for path in found if path.is_file() and path.name != "CHANGELOG.md")


def without_code(text):
    """A text without its blocks and its words between backticks, with each line in its place."""
    blank = lambda found: re.sub(r"[^\n]", " ", found.group(0))
    return re.sub(r"`[^`]*`", blank, re.sub(r"^ *```.*?^ *```$", blank, text, flags=re.S | re.M))
