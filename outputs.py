"""What the scripts write: lines to standard error, and a report to standard output. Each may be closed, full or broken, and its reader may
stall. Python's standard library alone."""
import collections
import os
import select
import signal
import sys
import threading

import children

# How many bytes wait for a reader of standard error. Lines past them are left out, and counted.
HELD = 4 << 20

# How many seconds a script waits before its report, and as it ends, for a reader of standard error that takes nothing.
PATIENCE = 1

# How many bytes are written at once.
PIECE = 65536


class Unwritten(Exception):
    """The report couldn't be written; the argument is the fault."""


def hold():
    """Opens /dev/null where a standard stream is closed, since what the script opens next would take its place. An output that was closed
    still can't be written."""
    for number in 0, 1, 2:
        try:
            os.fstat(number)
        except OSError:
            os.set_inheritable(os.open('/dev/null', os.O_RDONLY), True)
    if sys.stdin is None:
        sys.stdin = open(0, encoding='utf-8', closefd=False)
    if sys.stderr is None:
        sys.stderr = open(2, 'w', encoding='utf-8', closefd=False)


def write(descriptor, piece):
    """Writes some of a piece, and gives the rest. It waits also where others made the stream one that doesn't."""
    try:
        return piece[os.write(descriptor, piece[:PIECE]):]
    except BlockingIOError:
        select.select([], [descriptor], [])
        return piece


def encoded(text, stream):
    """A text for a stream, whose locale may lack some of its letters."""
    return memoryview(text.encode(getattr(stream, 'encoding', None) or 'utf-8', 'backslashreplace'))


class Lines:
    """The lines for standard error. One thread writes them, each whole, and nobody else waits for the reader. `fault` is the last one."""

    def __init__(self):
        self.waiting, self.size, self.left_out, self.steps, self.fault = collections.deque(), 0, 0, 0, None
        self.changed, self.writes = threading.Condition(), False

    def add(self, text):
        """A line more, unless as much as may waits already."""
        line = encoded(text + '\n', sys.stderr)
        with self.changed:
            if self.waiting and self.size + len(line) > HELD:
                self.left_out += 1 + text.count('\n')
                return
            self.tell_left_out()
            self.push(line)
            if not self.writes:
                threading.Thread(target=self.write_on, daemon=True).start()
                self.writes = True

    def tell_left_out(self):
        """A line in the place of those that are left out, if any are."""
        if self.left_out:
            self.push(encoded(f'.. {self.left_out} lines are left out here, which nobody took\n', sys.stderr))
            self.left_out = 0

    def push(self, line):
        self.waiting.append(line)
        self.size += len(line)
        self.changed.notify_all()

    def write_on(self):
        """Writes what waits, as it comes. A line that can't be written is lost."""
        while True:
            with self.changed:
                self.changed.wait_for(lambda: self.waiting)
                rest = line = self.waiting[0]
            while rest:
                try:
                    rest = write(2, rest)
                except OSError as fault:
                    self.fault, rest = fault, b''
                with self.changed:
                    self.steps += 1
                    self.changed.notify_all()
            with self.changed:
                self.waiting.popleft()
                self.size -= len(line)
                self.changed.notify_all()

    def drain(self):
        """Waits until everything is written, as long as some of it is taken now and then."""
        with self.changed:
            while self.waiting or self.left_out:
                if not self.waiting:
                    self.tell_left_out()
                before = self.steps
                if not self.changed.wait_for(lambda: self.steps != before or not self.waiting, PATIENCE):
                    return


LINES = Lines()


def say(text):
    """A line to standard error."""
    LINES.add(text)


def lost():
    """Whether lines to standard error were lost by a fault, and not since their reader has gone."""
    LINES.drain()
    return LINES.fault is not None and not isinstance(LINES.fault, BrokenPipeError)


def report(text):
    """Writes a text to standard output, behind the lines that were said before. `Unwritten` where that can't be."""
    LINES.drain()
    rest = encoded(text, sys.stdout)
    try:
        while rest:
            rest = write(1, rest)
    except OSError as fault:
        raise Unwritten(fault) from None


def end(status):
    """Ends the process, and what it started."""
    children.end_all()
    LINES.drain()
    os._exit(status)


def run(name, main, interrupted):
    """Runs a script, and ends with its status or that of an interrupt. Where the report can't be written that is 5, after a line; where its
    reader has gone the script ends quietly, by SIGPIPE."""
    hold()
    try:
        status = main()
    except SystemExit as ended:
        status = ended.code or 0
    except KeyboardInterrupt:
        status = interrupted
    except Unwritten as why:
        fault, = why.args
        status = 5
        if isinstance(fault, BrokenPipeError):
            children.end_all()
            LINES.drain()
            signal.signal(signal.SIGPIPE, signal.SIG_DFL)
            os.kill(os.getpid(), signal.SIGPIPE)
        say(f'{name}: standard output can\'t be written: {fault.strerror}')
    for number in signal.SIGINT, signal.SIGTERM, signal.SIGHUP:
        signal.signal(number, signal.SIG_IGN)
    end(status)
