"""The ledger that a node keeps: what the entries of the log leave, with the place where it goes on reading.

An entry is judged once, at its place in the log: it is applied if its block is valid for the ledger that the entries
before it left, and passed over for good if it is not. So the ledger after an entry is a function of the first ledger
and of the entries up to it, and all nodes have the same one. `speedex follow` is what judges.

The file `head` of a node's folder has all of it, so that a crash at any moment leaves the old whole or the new whole:

    a line of JSON      next: the offset of the next entry to read; last: SHA-256 of the entry before it, or nothing;
                        height; state and names: how many bytes and names follow; digest: SHA-256 of the state record;
                        whole: SHA-256 of the fields before it and of all that follows the line
    the state record    as the program reads and writes it
    the names           of the messages that were decided last, of 16 bytes each, the oldest first
"""

import collections
import hashlib
import json
import os
import pathlib
import struct
import subprocess
import sys

import entries

HEAD = "head"
# how much one call of the program is given at most: bytes and blocks
MOST_BYTES, MOST_BLOCKS = 64 << 20, 256
# what bin/speedex asks of the C library: huge pages, and memory that is kept
KEEP = "mmap_threshold=4294967296:glibc.malloc.trim_threshold=4294967296:glibc.malloc.top_pad=67108864"
TUNABLES = f"glibc.malloc.hugetlb=1:glibc.malloc.{KEEP}:glibc.malloc.arena_max=1"
MALFORMED, REFUSED = 5, 6
TAG = 2


LINE = ("next", "last", "height", "state", "names", "digest", "whole")


class Broken(Exception):
    """The program did not answer, or a file is not what was written: nothing may be concluded from it."""


def standing_program():
    """The file of the program that stands for the sources of this repository. It builds none, but ends this process."""
    top = pathlib.Path(__file__).resolve().parents[3]
    found = subprocess.run([top / "bin/speedex", "--path"], stdout=subprocess.PIPE, text=True, check=False)
    if found.returncode:
        sys.exit(found.returncode)
    return found.stdout.strip()


def whole(line, rest):
    """SHA-256 of the fields of a head's line but the last, and of what follows the line."""
    fields = json.dumps([line[it] for it in LINE[:-1]])
    return hashlib.sha256(fields.encode() + rest).hexdigest()


class Program:
    """The program `speedex`, with the words that a seal gets."""

    def __init__(self, command, seal_words=()):
        self.command, self.seal_words = command, list(seal_words)

    def run(self, words, *pieces):
        """The exit code, the output and the line on standard error."""
        environment = {"GLIBC_TUNABLES": TUNABLES, **os.environ}
        done = subprocess.run(
            [*self.command, *words], input=b"".join(pieces), capture_output=True, check=False, env=environment
        )
        return done.returncode, done.stdout, done.stderr.decode(errors="replace").strip()

    def seal(self, state, candidates):
        return self.run(["seal", *self.seal_words], state, candidates)

    def follow(self, state, blocks):
        """The state after the chain of these block records, or None if a record is malformed."""
        code, out, line = self.run(["follow"], state, *blocks)
        if code == MALFORMED:
            return None
        if code != 0 or not out:
            raise Broken(f"follow ended with code {code}: {line}")
        return out

    def fault(self, message):
        """The number of the form fault of a message, or 0. `show` takes records of other tags too."""
        if message and message[0] != entries.CANDIDATES:
            return TAG
        code, _, line = self.run(["show"], message)
        if code == MALFORMED:
            return int(line.split(": ")[1].split()[0])
        if code != 0:
            raise Broken(f"show ended with code {code}: {line}")
        return 0


class Head:
    """A ledger, the offset of the next entry, and the names of the messages that were decided last."""

    def __init__(self, state, offset=0, last="", names=(), remember=100_000):
        self.next, self.last, self.remember = offset, last, remember
        self.names = collections.OrderedDict.fromkeys(names)
        self.foreseen = None
        self.take(state)

    def take(self, state):
        self.state = state
        self.digest = hashlib.sha256(state).digest()
        (self.height,) = struct.unpack_from(">Q", state, entries.FRAME.size + 1)

    def foresee(self, block, state):
        """Notes the ledger that a block is known to leave of this one, so that it need not be computed again."""
        self.foreseen = (self.digest, block, state)

    def name(self, names):
        for name in names:
            self.names.setdefault(name)
        while len(self.names) > self.remember:
            self.names.popitem(last=False)

    def apply(self, program, found, applied):
        """Judges entries, given as (offset, bytes) in the order of the log, and adds those that it applies to a list.
        If it ends with an exception, the list and this head have what was judged until then."""
        for offset, data in found:
            if offset == self.next - 1 and self.last != hashlib.sha256(data).hexdigest():
                raise Broken(f"the log has another entry at {offset} than this node read there: it is another log")
        found = [(offset, data) for offset, data in found if offset >= self.next]
        while found:
            if found[0][0] != self.next:
                raise Broken(f"the log goes on at {found[0][0]}, and this node has to read {self.next} first")
            linked, taken = self.linked(found)
            left = self.left_by(program, linked)
            if left is None and linked:
                # one of them is not valid: only the first is judged now, and the others on what it leaves
                if len(linked) > 1:
                    linked = linked[:1]
                    left = self.left_by(program, linked)
                taken = linked[0][0] - self.next + 1
            if left is not None:
                self.take(left)
                for _, entry in linked:
                    self.name(entry.names())
                applied += linked
            self.last = hashlib.sha256(found[taken - 1][1]).hexdigest()
            self.next = found[taken - 1][0] + 1
            found = found[taken:]

    def linked(self, found):
        """Of the first entries those whose blocks name each the ledger before them, and how many were looked at."""
        linked, height, digest, size, taken = [], self.height, self.digest, 0, 0
        for offset, data in found:
            if offset != self.next + taken or size > MOST_BYTES or len(linked) == MOST_BLOCKS:
                break
            taken += 1
            try:
                entry = entries.Entry(data)
            except entries.NotAnEntry:
                continue
            if entry.block.height == height + 1 and entry.block.parent == digest:
                linked.append((offset, entry))
                height, digest, size = height + 1, entry.block.after, size + len(entry.block.record)
        return linked, taken

    def left_by(self, program, linked):
        """The state after these blocks if each is valid in turn, and else None. Their heights follow each other, so
        each was applied exactly if the height rose by as many."""
        if not linked:
            return None
        if self.foreseen and len(linked) == 1 and self.foreseen[:2] == (self.digest, linked[0][1].block.record):
            return self.foreseen[2]
        left = program.follow(self.state, [entry.block.record for _, entry in linked])
        if left is None:
            return None
        (height,) = struct.unpack_from(">Q", left, entries.FRAME.size + 1)
        return left if height == self.height + len(linked) else None

    # ---- the file

    def save(self, folder):
        """Writes the file: the whole of it under another name, then to the disk, then renamed, then the folder."""
        names = b"".join(self.names)
        line = {"next": self.next, "last": self.last, "height": self.height}
        line |= {"state": len(self.state), "names": len(self.names)}
        line |= {"digest": self.digest.hex()}
        line |= {"whole": whole(line, self.state + names)}
        path, fresh = os.path.join(folder, HEAD), os.path.join(folder, HEAD + ".new")
        with open(fresh, "wb") as file:
            file.write(json.dumps(line).encode() + b"\n" + self.state + names)
            file.flush()
            os.fsync(file.fileno())
        os.rename(fresh, path)
        there = os.open(folder, os.O_RDONLY | os.O_DIRECTORY)
        try:
            os.fsync(there)
        finally:
            os.close(there)

    @classmethod
    def load(cls, folder, remember=100_000):
        """The head of a folder, or None if it has none."""
        try:
            with open(os.path.join(folder, HEAD), "rb") as file:
                line, rest = json.loads(file.readline()), file.read()
            line = {it: line[it] for it in LINE}
        except FileNotFoundError:
            return None
        except (ValueError, KeyError, TypeError) as error:
            raise Broken(f"{folder}/{HEAD} does not begin with its line") from error
        if line["whole"] != whole(line, rest):
            raise Broken(f"{folder}/{HEAD} is damaged: copy that of another node, or begin with the first state")
        state, rest = rest[: line["state"]], rest[line["state"] :]
        names = [rest[at : at + 16] for at in range(0, len(rest), 16)]
        head = cls(state, line["next"], line["last"], names, remember)
        if (head.height, head.digest.hex(), len(head.names)) != (line["height"], line["digest"], line["names"]):
            raise Broken(f"{folder}/{HEAD} is damaged: its line is for another state")
        return head

    @classmethod
    def begin(cls, path, remember=100_000):
        """The head of a node that has read nothing yet, from the file of a state record."""
        with open(path, "rb") as file:
            state = file.read()
        if len(state) < entries.FRAME.size + 9 or entries.record_end(state, 0, 1) != len(state):
            raise Broken(f"{path} is not one state record")
        return cls(state, remember=remember)
