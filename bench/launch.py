"""How the program is started where it is timed: as bin/speedex starts it, but without that script, which takes some
milliseconds by itself."""
import os
import pathlib
import subprocess
import sys

TOP = pathlib.Path(__file__).resolve().parent.parent


def find_program():
    """The file that bin/speedex runs, which is proved and built first if none stands for these sources."""
    words = [TOP / "bin/speedex", "--path"]
    if subprocess.run(words, capture_output=True).returncode:
        # without words the program ends with 2
        subprocess.run(words[:1], stdin=subprocess.DEVNULL)
    found = subprocess.run(words, stdout=subprocess.PIPE, text=True)
    return found.stdout.strip() or sys.exit("there is no program to time")


PROGRAM = os.environ.get("SPEEDEX_PROGRAM") or find_program()
# what bin/speedex asks of the C library
TUNABLES = ":".join(
    "glibc.malloc." + word
    for word in (
        "hugetlb=1",
        "mmap_threshold=4294967296",
        "trim_threshold=4294967296",
        "top_pad=67108864",
        "arena_max=1",
    )
)
ENV = {"GLIBC_TUNABLES": TUNABLES, **os.environ}
