"""What planrun, crosscheck and statecheck do when a stream is slow, not ready, closed, full or broken.

    streams.py DIRECTORY [WORD..]    the programs in DIRECTORY; WORD.. starts one on another processor
"""
import errno
import fcntl
import os
import resource
import signal
import socket
import struct
import subprocess
import sys
import tempfile
import threading
import time

NAMES = ("planrun", "crosscheck", "statecheck")
CLOSED = None
PIPE = "pipe"
LIMIT = 20  # seconds for one run


class Program:
    """A program with a short input, an input whose text is larger than a pipe, and what it writes for both."""

    def __init__(self, name, directory, words):
        self.name = name
        self.command = words + [os.path.join(directory, name)]
        self.short = INPUTS[name][0]
        self.large = INPUTS[name][1]
        self.short_text = self.plain(self.short)
        self.large_text = self.plain(self.large)
        if self.short_text.count(b"\n") < 2 or len(self.large_text) < 100000:
            sys.exit(f"streams: FAILED: the inputs of {name} are too small")

    def plain(self, data):
        """What it writes for an input from a file into a file."""
        with tempfile.TemporaryFile() as source, tempfile.TemporaryFile() as sink:
            source.write(data)
            source.seek(0)
            subprocess.run(self.command, stdin=source, stdout=sink, check=True, timeout=LIMIT)
            sink.seek(0)
            return sink.read()

    def unreadable(self, number):
        """Its line on standard error for a read that fails."""
        return f"{self.name}: cannot read standard input: {os.strerror(number)}\n".encode()

    def unwritable(self, number):
        """Its line on standard error for a write that fails."""
        return f"{self.name}: cannot write standard output: {os.strerror(number)}\n".encode()


def contents(path):
    """A file's bytes."""
    with open(path, "rb") as file:
        return file.read()


def framed(records):
    """A stream of records, each behind its length."""
    return b"".join(len(record).to_bytes(4, "little") + record for record in records)


def open_calls(length):
    """Plan P and as many calls `open 0` as make this many bytes."""
    plan = contents("crates/planrun/stdin")[:100]
    return plan + bytes(length - len(plan))


INPUTS = {
    "planrun": (contents("crates/planrun/stdin"), open_calls(65536)),
    "crosscheck": (framed([contents("crates/planrun/stdin"), b"", b"no plan"]), contents("crates/crosscheck/stdin")),
    "statecheck": (framed([b"", bytes([1, 0, 0, 0] * 2 + [1, 0])]), contents("crates/statecheck/stdin")),
}


class Ended:
    """How a run ended: its status, and what it wrote."""

    def __init__(self, status, text, line):
        self.status, self.text, self.line = status, text, line


def start(program, streams, prepare):
    """The program with these descriptors as 0, 1 and 2; CLOSED closes one."""

    def arrange():
        for number, stream in enumerate(streams):
            if stream is CLOSED:
                os.close(number)
            else:
                os.dup2(stream, number)
        if prepare:
            prepare()

    return subprocess.Popen(program.command, preexec_fn=arrange)


def drained(descriptor, pause):
    """All bytes of a descriptor, which is closed then; with a pause, in small parts and slowly."""
    parts = []
    while True:
        time.sleep(pause)
        part = os.read(descriptor, 5000 if pause else 65536)
        if not part:
            os.close(descriptor)
            return b"".join(parts)
        parts.append(part)


def fed(descriptor, parts, pause):
    """Writes parts with a pause before each, and closes; a reader that is gone is the run's own affair."""
    try:
        for part in parts:
            time.sleep(pause)
            os.write(descriptor, part)
        time.sleep(pause)
    except BrokenPipeError:
        pass
    os.close(descriptor)


def run(program, source, sink=PIPE, told=True, waits=True, slowly=0.0, feed=None, prepare=None):
    """Runs the program. SOURCE is its input, SINK its output: PIPE is read here, and with WAITS false it says "try again" when it is full.
    A program that does not end is killed."""
    inner, outer = os.pipe() if sink == PIPE else (CLOSED, sink)
    if slowly:
        fcntl.fcntl(outer, fcntl.F_SETPIPE_SZ, 4096)
    line, error = os.pipe()
    process = start(program, (source, outer if waits else nonblocking(outer), error if told else CLOSED), prepare)
    for descriptor in {source, outer, error} - {CLOSED}:
        os.close(descriptor)
    feeder = threading.Thread(target=feed or (lambda process: None), args=(process,))
    watch = threading.Timer(LIMIT, process.kill)
    feeder.start()
    watch.start()
    time.sleep(100 * slowly)
    text = b"" if inner is CLOSED else drained(inner, slowly)
    said = drained(line, 0)
    status = process.wait()
    watch.cancel()
    watch.join()
    feeder.join()
    return Ended(status, text, said)


def file_of(data):
    """A descriptor that reads these bytes."""
    with tempfile.TemporaryFile() as file:
        file.write(data)
        file.seek(0)
        return os.dup(file.fileno())


def nonblocking(descriptor):
    """The descriptor, no longer waiting."""
    flags = fcntl.fcntl(descriptor, fcntl.F_GETFL)
    fcntl.fcntl(descriptor, fcntl.F_SETFL, flags | os.O_NONBLOCK)
    return descriptor


def pieces(data, size):
    """The bytes in parts of a size."""
    return [data[i : i + size] for i in range(0, len(data), size)]


def through_pipe(program, parts, pause, waits=True):
    """A run whose input comes by a pipe, part after part; with WAITS false the pipe says "try again"."""
    inner, outer = os.pipe()
    source = inner if waits else nonblocking(inner)
    return run(program, source, feed=lambda process: fed(outer, parts, pause))


def through_socket(program, limit, interrupt):
    """A run whose input comes late by a socket on which a read waits at most LIMIT seconds; INTERRUPT stops the program on the way."""
    ours, theirs = socket.socketpair()
    theirs.setsockopt(socket.SOL_SOCKET, socket.SO_RCVTIMEO, struct.pack("ll", int(limit), int(limit % 1 * 1000000)))

    def feed(process):
        time.sleep(0.2)
        if interrupt:
            process.send_signal(signal.SIGSTOP)
            time.sleep(0.05)
            process.send_signal(signal.SIGCONT)
            time.sleep(0.1)
        fed(ours.detach(), [program.short], 0)

    return run(program, theirs.detach(), feed=feed)


def broken_source(data):
    """A socket that gives these bytes, then an error: its other end is closed with bytes that nobody read."""
    ours, theirs = socket.socketpair()
    theirs.sendall(b"unread")
    ours.sendall(data)
    ours.close()
    return theirs.detach()


def gone_reader():
    """A pipe that nobody reads any more."""
    inner, outer = os.pipe()
    os.close(inner)
    return outer


def few_bytes():
    """Files end after 50 bytes, and writing more is an error, no signal."""
    signal.signal(signal.SIGXFSZ, signal.SIG_IGN)
    resource.setrlimit(resource.RLIMIT_FSIZE, (50, 50))


def no_signal():
    """A pipe that nobody reads is an error, no signal."""
    signal.signal(signal.SIGPIPE, signal.SIG_IGN)


class Cases:
    """The cases that were tried, and those that failed."""

    def __init__(self):
        self.count = 0
        self.failed = []

    def expect(self, program, case, ended, text, line, status=0):
        """One case: the text and the line on standard error, to the byte, and how the program ended."""
        self.count += 1
        found = [
            f"{what} {shown(got)}, expected {shown(wanted)}"
            for what, got, wanted in (
                ("standard output", ended.text, text),
                ("standard error", ended.line, line),
                ("status", ended.status, status),
            )
            if got != wanted
        ]
        if found:
            self.failed.append(f"{program.name}: {case}: {'; '.join(found)}")


def shown(value):
    """A value in few words."""
    return repr(value) if not isinstance(value, bytes) or len(value) < 90 else f"{len(value)} bytes {value[:60]!r}.."


def try_good(cases, program):
    """Nothing is wrong: the whole text, and nothing on standard error."""
    text = program.short_text
    cases.expect(program, "a file", run(program, file_of(program.short)), text, b"")
    cases.expect(program, "a slow pipe, byte by byte", through_pipe(program, pieces(program.short, 1), 0.001), text, b"")
    cases.expect(program, "a large input by a pipe", through_pipe(program, pieces(program.large, 4096), 0), program.large_text, b"")


def try_not_ready(cases, program):
    """Streams that say "try again"."""
    text = program.short_text
    halves = pieces(program.short, len(program.short) // 2 + 1)
    cases.expect(program, "a non-blocking pipe with pauses", through_pipe(program, halves, 0.2, False), text, b"")
    cases.expect(program, "a non-blocking pipe, byte by byte", through_pipe(program, pieces(program.short, 1), 0.001, False), text, b"")
    cases.expect(program, "a non-blocking pipe that ends", through_pipe(program, [], 0.2, False), program.plain(b""), b"")
    cases.expect(program, "a socket with a limit of time", through_socket(program, 0.05, False), text, b"")
    cases.expect(program, "a read that a signal interrupts", through_socket(program, 10, True), text, b"")
    for case, waits in (("a slow reader", True), ("a slow reader of a non-blocking pipe", False)):
        late = run(program, file_of(program.large), waits=waits, slowly=0.001)
        cases.expect(program, case, late, program.large_text, b"")


def try_unreadable(cases, program):
    """A read fails: one line, and no verdict on what was not read."""
    bad = program.unreadable(errno.EBADF)
    broken = program.unreadable(errno.ECONNRESET)
    cases.expect(program, "input for writing only", run(program, os.open("/dev/null", os.O_WRONLY)), b"", bad)
    cases.expect(program, "a folder", run(program, os.open(".", os.O_RDONLY)), b"", program.unreadable(errno.EISDIR))
    cases.expect(program, "an error at once", run(program, broken_source(b"")), b"", broken)
    answered = b"" if program.name == "planrun" else program.short_text
    cases.expect(program, "an error behind the input", run(program, broken_source(program.short)), answered, broken)
    cut = program.short + b"\xff\0\0\0begun"
    cases.expect(program, "an error inside the input", run(program, broken_source(cut)), answered, broken)


def try_unwritable(cases, program):
    """A write fails: one line."""
    bad = program.unwritable(errno.EBADF)
    full = program.unwritable(errno.ENOSPC)
    gone = program.unwritable(errno.EPIPE)

    def into(sink, data=program.short, **more):
        return run(program, file_of(data), sink, **more)

    cases.expect(program, "/dev/full", into(os.open("/dev/full", os.O_WRONLY)), b"", full)
    cases.expect(program, "/dev/full, a large text", into(os.open("/dev/full", os.O_WRONLY), program.large), b"", full)
    cases.expect(program, "output for reading only", into(os.open("/dev/null", os.O_RDONLY)), b"", bad)
    # the start of a Rattle program ignores SIGPIPE, whatever its caller chose
    cases.expect(program, "a reader that is gone", into(gone_reader()), b"", gone)
    cases.expect(program, "the same without the signal", into(gone_reader(), prepare=no_signal), b"", gone)
    with tempfile.TemporaryFile() as file:
        ended = into(os.dup(file.fileno()), program.large, prepare=few_bytes)
        file.seek(0)
        ended.text = file.read()
    cases.expect(program, "a file that takes 50 bytes", ended, program.large_text[:50], program.unwritable(errno.EFBIG))


def try_closed(cases, program):
    """Closed descriptors."""
    short, full = file_of(program.short), os.open("/dev/full", os.O_WRONLY)
    cases.expect(program, "closed input", run(program, CLOSED), b"", program.unreadable(errno.EBADF))
    cases.expect(program, "closed output", run(program, file_of(program.short), CLOSED), b"", program.unwritable(errno.EBADF))
    cases.expect(program, "closed error", run(program, file_of(program.short), told=False), program.short_text, b"")
    cases.expect(program, "closed input and error", run(program, CLOSED, told=False), b"", b"")
    cases.expect(program, "closed error, /dev/full", run(program, short, full, told=False), b"", b"")
    cases.expect(program, "all closed", run(program, CLOSED, CLOSED, told=False), b"", b"")


def try_lengths(cases, program):
    """65,536 bytes are read to the last one; with one more the text is `too long`."""
    whole = open_calls(65536)
    lines = program.large_text.split(b"\n")
    if lines[0] != b"plan 1 4 4" or len(lines) != 1 + 16359 + 1 or not lines[16359].startswith(b"16358 "):
        cases.failed.append("planrun: the text for 65,536 bytes")
    for data, text in ((whole, program.large_text), (whole + b"\0", b"too long\n"), (whole + bytes(200000), b"too long\n")):
        case = f"{len(data)} bytes"
        cases.expect(program, case, run(program, file_of(data)), text, b"")
        cases.expect(program, f"{case} by a slow pipe", through_pipe(program, pieces(data, 3001), 0.002), text, b"")
        cases.expect(program, f"{case} by a non-blocking pipe", through_pipe(program, pieces(data, 3001), 0.002, False), text, b"")
    cases.expect(program, "65537 bytes, the last one late", through_pipe(program, [whole, b"\0"], 0.2), b"too long\n", b"")
    cases.expect(program, "65536 bytes, the end late", through_pipe(program, [whole], 0.2), program.large_text, b"")


def main():
    directory, *words = sys.argv[1:]
    cases = Cases()
    for name in NAMES:
        program = Program(name, directory, words)
        for attempt in (try_good, try_not_ready, try_unreadable, try_unwritable):
            attempt(cases, program)
        if not words:  # an emulator may take a number that is closed for itself
            try_closed(cases, program)
        if name == "planrun":
            try_lengths(cases, program)
    for failure in cases.failed:
        print(f"streams: FAILED: {failure}")
    print(f"streams: {cases.count} cases, {len(cases.failed)} failed")
    if cases.failed:
        sys.exit(1)


main()
