"""Runs a program and looks at it from outside: how many threads it starts, and what it does at faults of its streams.

It calls ptrace(2) by way of ctypes, on x86-64 Linux, and needs no tool beside Python. `why_not` says if the system does
not allow it. A fault is put in at a system call of the program: an error is answered instead of the call, or the call
is made for fewer bytes. So the program meets what a disk or a pipe can do to it, at the very call that is wanted.
"""

import ctypes
import fcntl
import os
import platform
import signal

TRACE_ME, CONT, GET_REGISTERS, SET_REGISTERS, SYSCALL, SET_OPTIONS = 0, 7, 12, 13, 24, 0x4200
# the options: system calls, clones and execs are told, and the program ends if this process does
OPTIONS = 1 | 1 << 3 | 1 << 4 | 1 << 20
CLONED, ALL_CHILDREN = 3, 0x40000000
READ, WRITE = 0, 1
# places in the registers
ANSWER, COUNT, FILE, NUMBER, REGISTERS = 10, 12, 14, 15, 27
NO_CALL = (1 << 64) - 1

_libc = ctypes.CDLL(None, use_errno=True)
_libc.ptrace.argtypes = [ctypes.c_long, ctypes.c_long, ctypes.c_void_p, ctypes.c_void_p]
_libc.ptrace.restype = ctypes.c_long


def _ptrace(request, pid, data=None):
    if _libc.ptrace(request, pid, None, data) == -1:
        raise OSError(ctypes.get_errno(), os.strerror(ctypes.get_errno()))


class Error:
    """A call that is not made, and answers this error."""

    def __init__(self, number):
        self.number = number

    def __repr__(self):
        return f"error {self.number}"


class Short:
    """A call that is made for at most so many bytes."""

    def __init__(self, count):
        self.count = count

    def __repr__(self):
        return f"at most {self.count} bytes"


class Run:
    """A run that ended: its exit code (minus a signal's number), how many threads it started, the most that there were
    at once beside the first, and its calls.

    `calls` has for each read of standard input and each write to standard output or error, in their order, what was
    called (READ or WRITE), of which file, for how many bytes, and what was answered.
    """

    def __init__(self):
        self.code, self.threads, self.at_once, self.calls = None, 0, 0, []

    def count(self, call, file):
        return sum(it[:2] == (call, file) for it in self.calls)


class _Tracer:
    """Follows the threads of one process. `faults` has the fault of the n-th call of a kind on a file, n from 1; with
    the number 0 that of each call. Without `faults` no system call is looked at."""

    def __init__(self, pid, faults):
        self.pid, self.faults, self.run = pid, faults, Run()
        self.threads, self.inside, self.counts = {pid}, {}, {}
        self.go_on = CONT if faults is None else SYSCALL

    def follow(self):
        _ptrace(SET_OPTIONS, self.pid, OPTIONS)
        _ptrace(self.go_on, self.pid)
        while self.threads:
            pid, status = os.waitpid(-1, ALL_CHILDREN)
            if os.WIFEXITED(status) or os.WIFSIGNALED(status):
                self.threads.discard(pid)
                if pid == self.pid:
                    self.run.code = os.waitstatus_to_exitcode(status)
                continue
            try:
                _ptrace(self.go_on, pid, self.stopped(pid, os.WSTOPSIG(status), status >> 16))
            except ProcessLookupError:
                # it was killed as the process ended
                continue
        return self.run

    def stopped(self, pid, number, event):
        """What is done at a stop of a thread; the signal that it is given."""
        if pid not in self.threads:
            # a new thread, at its first stop
            self.threads.add(pid)
            self.run.at_once = max(self.run.at_once, len(self.threads) - 1)
            return None
        if number == signal.SIGTRAP | 0x80:
            self.at_call(pid)
            return None
        if event:
            self.run.threads += event == CLONED
            return None
        return None if number == signal.SIGTRAP else number

    def at_call(self, pid):
        registers = (ctypes.c_ulonglong * REGISTERS)()
        _ptrace(GET_REGISTERS, pid, ctypes.addressof(registers))
        if pid in self.inside:
            self.leaves(pid, registers, *self.inside.pop(pid))
        else:
            self.inside[pid] = self.enters(pid, registers)

    def enters(self, pid, registers):
        call = registers[NUMBER], registers[FILE]
        if call not in ((READ, 0), (WRITE, 1), (WRITE, 2)):
            return None, None, None
        self.counts[call] = self.counts.get(call, 0) + 1
        fault = self.faults.get((*call, self.counts[call]), self.faults.get((*call, 0)))
        wanted = registers[COUNT]
        if isinstance(fault, Error):
            registers[NUMBER] = NO_CALL
        elif isinstance(fault, Short):
            registers[COUNT] = min(wanted, fault.count)
        if fault:
            _ptrace(SET_REGISTERS, pid, ctypes.addressof(registers))
        return call, fault, wanted

    def leaves(self, pid, registers, call, fault, wanted):
        if call is None:
            return
        if isinstance(fault, Error):
            registers[ANSWER] = (1 << 64) - fault.number
        registers[COUNT] = wanted
        if fault:
            _ptrace(SET_REGISTERS, pid, ctypes.addressof(registers))
        answer = registers[ANSWER]
        self.run.calls.append((*call, wanted, answer - (1 << 64) if answer >> 63 else answer))


def run(words, files, faults=None, before=None):
    """Runs the words with these files as standard input, output and error; `before` is called ahead of them."""
    pid = os.fork()
    if pid == 0:
        try:
            # above the three that they become
            high = [fcntl.fcntl(file, fcntl.F_DUPFD, 10) for file in files]
            for place, file in enumerate(high):
                os.dup2(file, place)
                os.close(file)
            if before:
                before()
            _ptrace(TRACE_ME, 0)
            os.kill(os.getpid(), signal.SIGSTOP)
            os.execv(words[0], words)
        finally:
            os._exit(127)
    _, status = os.waitpid(pid, os.WUNTRACED)
    if not os.WIFSTOPPED(status):
        raise OSError("the system does not allow a process to be traced")
    return _Tracer(pid, faults).follow()


def why_not():
    """Why nothing can be traced here, or nothing."""
    if platform.machine() != "x86_64" or platform.system() != "Linux":
        return "tracing is written for x86-64 Linux"
    with open(os.devnull, "r+b") as nowhere:
        try:
            done = run(["/bin/sh", "-c", "echo"], [nowhere.fileno()] * 3, {(WRITE, 1, 1): Error(5)})
        except OSError as error:
            return f"no process can be traced: {error}"
    return None if done.calls and done.calls[0][3] == -5 else "a traced process does not tell its system calls"
