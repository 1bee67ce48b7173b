"""Runs a program on Linux (x86-64) as a debugger does, and lets one of its requests to the system fail.

`run(command, given, fault)` plays a program once. A fault is a kind, a number and perhaps `onward`: the request of that
number fails, or each from that number on. The program itself is the one that is used: no library is put before
another, and nothing is built anew.

Kinds:

    memory     a call of malloc, realloc, calloc or aligned_alloc, by any thread, answers that there is no memory, with ENOMEM
    read       a read of standard input fails with EIO
    write      a write to standard output fails with EIO
    interrupt  a read or write of these two is broken off with EINTR before it moves a byte
    short      a read or write of several bytes moves one
    thread     a thread can't be started: clone answers EAGAIN
"""

import ctypes
import dataclasses
import os
import pathlib
import signal
import struct
import tempfile

KINDS = ["memory", "read", "write", "interrupt", "short", "thread"]
SECONDS = 120

TRACEME, PEEKTEXT, POKETEXT, CONT, SINGLESTEP, GETREGS, SETREGS, SYSCALL, SETOPTIONS = 0, 1, 4, 7, 9, 12, 13, 24, 0x4200
TELL_SYSCALLS, FOLLOW_THREADS, KILL_WITH_US = 1, 8, 0x100000
ANY_CHILD, ANY_THREAD = -1, 0x40000000
SYSCALL_STOP = signal.SIGTRAP | 0x80
READ, WRITE, CLONE, CLONE3 = 0, 1, 56, 435
EIO, EINTR, EAGAIN, ENOMEM = 5, 4, 11, 12
LOAD_FROM_TABLE = b"\x48\x8b\x05"  # (mov rax, [rip + ..])
BREAK, ENDBR, PUSH_RBP = b"\xcc", b"\xf3\x0f\x1e\xfa", b"\x55"
ALLOCATORS = ("malloc", "realloc", "calloc", "aligned_alloc", "posix_memalign")

NAMES = ("r15 r14 r13 r12 rbp rbx r11 r10 r9 r8 rax rcx rdx rsi rdi orig_rax rip cs eflags rsp ss fs_base gs_base ds es "
         "fs gs")


class Registers(ctypes.Structure):
    """The registers of a thread, as the kernel lays them out."""

    _fields_ = [(name, ctypes.c_ulonglong) for name in NAMES.split()]


LIBC = ctypes.CDLL(None, use_errno=True)
LIBC.ptrace.argtypes = [ctypes.c_long, ctypes.c_long, ctypes.c_void_p, ctypes.c_void_p]
LIBC.ptrace.restype = ctypes.c_long


@dataclasses.dataclass
class Fault:
    """Which request fails: the one of this number (from 1), or each from it on. Number 0 lets none fail, and counts."""

    kind: str
    number: int = 0
    onward: bool = False

    def hits(self, count):
        return self.number and (count == self.number or self.onward and count > self.number)


@dataclasses.dataclass
class Outcome:
    """How a run ended: its status (below 0: a signal), what it wrote, and how many requests of the kind there were."""

    status: int
    out: bytes
    err: bytes
    count: int


def is_allowed():
    """Whether programs can be traced here: on Linux and x86-64, where the system lets them be."""
    if (os.uname().sysname, os.uname().machine) != ("Linux", "x86_64"):
        return False
    child = os.fork()
    if child == 0:
        os._exit(LIBC.ptrace(TRACEME, 0, None, None) != 0)
    return os.waitstatus_to_exitcode(os.waitpid(child, 0)[1]) == 0


def symbols(path):
    """The functions that an ELF file defines, by name, with their addresses in it; and its entry."""
    data = pathlib.Path(path).read_bytes()
    entry, sections = struct.unpack_from("<Q", data, 24)[0], struct.unpack_from("<Q", data, 40)[0]
    size, count = struct.unpack_from("<HH", data, 58)
    heads = [struct.unpack_from("<IIQQQQIIQQ", data, sections + size * place) for place in range(count)]
    found = {}
    for _, kind, _, _, at, length, link, _, _, each in heads:
        if kind not in (2, 11):
            continue
        texts = heads[link][4]
        for place in range(at, at + length, each):
            name, info, _, section, value, _ = struct.unpack_from("<IBBHQQ", data, place)
            if value and section and info & 15 in (0, 2, 10):
                end = data.index(b"\0", texts + name)
                found[data[texts + name:end].decode(errors="replace")] = value
    return found, entry


class Tracee:
    """A program that is being run, stopped at each request of one kind."""

    def __init__(self, command, files, fault):
        self.fault, self.count, self.places, self.inside, self.is_past = fault, 0, {}, {}, False
        self.errno_offset = None
        self.pid = os.fork()
        if self.pid == 0:
            self.become(command, files)
        os.waitpid(self.pid, 0)
        self.memory = os.open(f"/proc/{self.pid}/mem", os.O_RDWR)
        self.ask(SETOPTIONS, self.pid, TELL_SYSCALLS | FOLLOW_THREADS | KILL_WITH_US)
        self.onward = CONT if fault.kind == "memory" else SYSCALL
        if fault.kind == "memory":
            self.watch_allocators(command[0])

    @staticmethod
    def become(command, files):
        """Is the program, from here on, in a child of our own."""
        try:
            for wanted, file in enumerate(files):
                os.dup2(file.fileno(), wanted)
            LIBC.ptrace(TRACEME, 0, None, None)
            os.execve(command[0], command, {"PATH": os.defpath})
        finally:
            os._exit(127)

    def ask(self, what, thread, word=0):
        return LIBC.ptrace(what, thread, None, word)

    def peek(self, at, size):
        return os.pread(self.memory, size, at)

    def poke(self, at, data):
        os.pwrite(self.memory, data, at)

    def bases(self):
        """Where each file stands in memory, by its path."""
        found = {}
        for line in pathlib.Path(f"/proc/{self.pid}/maps").read_text().splitlines():
            words = line.split(None, 5)
            if len(words) == 6 and words[5].startswith("/") and int(words[2], 16) == 0:
                found.setdefault(words[5], int(words[0].partition("-")[0], 16))
        return found

    def watch_allocators(self, program):
        """Runs to the program's own begin, where all libraries are in place, and breaks at the calls that take memory."""
        program = os.path.realpath(program)
        own, entry = symbols(program)
        base = self.bases()[program]
        self.run_to(base + own.get("main", entry))
        names = own
        if "malloc" not in own:
            library = next(it for it in self.bases() if os.path.basename(it).startswith("libc.so"))
            (names, _), base = symbols(library), self.bases()[library]
        if "__errno_location" in names:
            self.errno_offset = self.offset_of_errno(base + names["__errno_location"])
        for place in (base + names[name] for name in ALLOCATORS if name in names):
            self.places[place] = self.peek(place, 4)
            self.poke(place, BREAK)

    def offset_of_errno(self, place):
        """How far a thread's `errno` stands from its own block, which its register fs names: the function that tells where it
        stands loads this number from a table."""
        code = self.peek(place, 16)
        at = code.find(LOAD_FROM_TABLE)
        if at < 0:
            return None
        behind = at + len(LOAD_FROM_TABLE)
        entry = place + behind + 4 + int.from_bytes(code[behind:behind + 4], "little", signed=True)
        return int.from_bytes(self.peek(entry, 8), "little", signed=True)

    def run_to(self, place):
        first = self.peek(place, 1)
        self.poke(place, BREAK)
        self.ask(CONT, self.pid)
        _, status = os.waitpid(self.pid, 0)
        if not (os.WIFSTOPPED(status) and os.WSTOPSIG(status) == signal.SIGTRAP):
            raise SystemExit(f"the program didn't come to its begin: {status:#x}")
        self.poke(place, first)
        registers = self.registers(self.pid)
        registers.rip = place
        self.set_registers(self.pid, registers)

    def registers(self, thread):
        registers = Registers()
        LIBC.ptrace(GETREGS, thread, None, ctypes.addressof(registers))
        return registers

    def set_registers(self, thread, registers):
        LIBC.ptrace(SETREGS, thread, None, ctypes.addressof(registers))

    def play(self):
        """Lets the program run to its end; its status."""
        self.ask(self.onward, self.pid)
        while True:
            thread, status = os.waitpid(ANY_CHILD, ANY_THREAD)
            if os.WIFEXITED(status) or os.WIFSIGNALED(status):
                if thread == self.pid:
                    return os.WEXITSTATUS(status) if os.WIFEXITED(status) else -os.WTERMSIG(status)
                continue
            self.ask(self.onward, thread, self.at_stop(thread, os.WSTOPSIG(status), status >> 16))

    def at_stop(self, thread, why, event):
        """Does what there is to do at a stop; the signal that the thread is to get."""
        if why == SYSCALL_STOP:
            self.at_syscall(thread)
            return 0
        if event or why == signal.SIGSTOP:
            return 0  # A thread begins.
        if why == signal.SIGTRAP:
            registers = self.registers(thread)
            if registers.rip - 1 in self.places:
                self.at_allocator(thread, registers)
                return 0
        return why

    def at_allocator(self, thread, registers):
        """Answers that there is no memory, or goes on in the call."""
        place = registers.rip - 1
        if self.is_past:
            registers.rip = place
            self.set_registers(thread, registers)
            return
        self.count += 1
        if self.fault.hits(self.count):
            if self.errno_offset is not None:
                self.poke(registers.fs_base + self.errno_offset, ENOMEM.to_bytes(4, "little"))
            registers.rax, registers.rip = 0, int.from_bytes(self.peek(registers.rsp, 8), "little")
            registers.rsp += 8
        elif self.places[place] == ENDBR:
            registers.rip = place + 4
        elif self.places[place][:1] == PUSH_RBP:
            registers.rsp -= 8
            self.poke(registers.rsp, registers.rbp.to_bytes(8, "little"))
            registers.rip = place + 1
        else:
            self.step_over(thread, registers, place)
            return
        self.set_registers(thread, registers)
        if self.count == self.fault.number and not self.fault.onward:
            self.is_past = True  # The rest runs without a stop; a thread that stands at a place is set back to it.
            for place, first in self.places.items():
                self.poke(place, first[:1])

    def step_over(self, thread, registers, place):
        self.poke(place, self.places[place][:1])
        registers.rip = place
        self.set_registers(thread, registers)
        self.ask(SINGLESTEP, thread)
        os.waitpid(thread, ANY_THREAD)
        self.poke(place, BREAK)

    def at_syscall(self, thread):
        """At a call of the system that is of the kind, and at its end where it is to fail. Callers' threads neither read, write
        nor start others, so the first thread's calls are all that there are."""
        if thread != self.pid:
            return
        registers = self.registers(thread)
        if thread in self.inside:
            answer = self.inside.pop(thread)
            if answer is not None:
                registers.rax = answer % 2 ** 64
                self.set_registers(thread, registers)
            return
        self.inside[thread] = None
        answer = self.failure(registers)
        if answer is None:
            return
        self.count += 1
        if not self.fault.hits(self.count):
            return
        if self.fault.kind == "short":
            registers.rdx = 1
        else:
            registers.orig_rax = 2 ** 64 - 1
            self.inside[thread] = -answer
        self.set_registers(thread, registers)

    def failure(self, registers):
        """The error of a call that is of the kind, else None."""
        kind, call = self.fault.kind, registers.orig_rax
        if kind == "thread":
            return EAGAIN if call in (CLONE, CLONE3) else None
        if (call, registers.rdi) not in ((READ, 0), (WRITE, 1)):
            return None
        if kind == "short":
            return EIO if registers.rdx > 1 else None
        if kind == "interrupt":
            return EINTR
        return EIO if (kind, call) in (("read", READ), ("write", WRITE)) else None


def run(command, given, fault):
    """Runs a command, whose first word is the program's path, on a file as its standard input."""
    command = [os.path.realpath(command[0]), *command[1:]]
    with open(given, "rb") as source, tempfile.TemporaryFile() as out, tempfile.TemporaryFile() as err:
        tracee = Tracee(command, (source, out, err), fault)
        signal.signal(signal.SIGALRM, lambda *_: os.kill(tracee.pid, signal.SIGKILL))
        signal.alarm(SECONDS)
        try:
            status = tracee.play()
        finally:
            signal.alarm(0)
            os.close(tracee.memory)
        out.seek(0)
        err.seek(0)
        return Outcome(status, out.read(), err.read(), tracee.count)
