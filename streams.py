"""What the scripts over real streams share: building a program of this repository, words that are numbers, and a relay between a socket
and a program. Python's standard library alone."""
import argparse
import os
import selectors
import socket
import ssl
import struct
import subprocess
import sys
import time
import typing

import children
from decoding import CUT
from tracing import Trace

TOP = os.path.dirname(os.path.realpath(__file__))


def built(name, unproved=False):
    """The path of a program, which is proved and built first where it isn't current, or just built. Ends with 70 where it can't be."""
    if subprocess.run([os.path.join(TOP, 'build'), *(['--unproved'] if unproved else []), name], stdout=2, env=children.environment()).returncode:
        sys.exit(70)
    return os.path.join(TOP, 'crates', name, 'out', name + ('.unproved' if unproved else ''))


def whole_number(least, most):
    """Reads a word that is a whole number in a range, for argparse."""
    def read(text):
        if not (text.isascii() and text.isdecimal() and len(text) <= len(str(most)) and least <= int(text) <= most):
            raise argparse.ArgumentTypeError(f'{text} is no whole number from {least} to {most}')
        return int(text)
    return read


def seconds(text):
    """Reads a word that is a time to wait, for argparse. What select can wait for ends somewhere past the greatest."""
    try:
        number = float(text)
    except ValueError:
        number = 0
    if not 0 < number <= 1_000_000:
        raise argparse.ArgumentTypeError(f'{text} is no number of seconds above 0 and up to 1000000')
    return number


# ---- frames, as their bytes come

class Frames:
    """The frames of one direction: their bytes are counted, and the front of each is kept, as much as is looked at."""

    def __init__(self, keep):
        self.keep, self.front, self.came, self.length = keep, bytearray(), 0, 16

    def take(self, piece):
        """The front and the length of each frame that came whole with this piece. After a length below that of a header none is found."""
        at = 0
        while at < len(piece):
            step = piece[at:at + self.length - self.came] if self.length >= 16 else piece[at:]
            self.front += step[:max(0, self.keep - len(self.front))]
            self.came += len(step)
            at += len(step)
            if self.came == 16:
                self.length = struct.unpack_from('<i', self.front)[0]
            if self.came == self.length:
                yield bytes(self.front), self.length
                self.front, self.came, self.length = bytearray(), 0, 16


# How much is kept of a frame that isn't traced, so that a login is known.
LOOKED_AT = 4096


# ---- a program between its settings and a socket

# How many bytes are read ahead of a program before the peer has to wait.
AHEAD = 1 << 20


class Closed(Exception):
    """A stream was given up, and why."""


class Limits(typing.NamedTuple):
    """How many seconds things may take: a frame of the peer's, and the taking of a piece; its silence before a frame, where that may be
    longer; and a login, whoever's turn it is."""
    frame: float
    login: float
    idle: float = 0


class Clock:
    """Whose turn it is, and until when. Only a whole frame passes the turn on; a single byte restarts nothing."""

    def __init__(self, limits, peer_begins):
        self.limits, self.owed, self.begun = limits, 0 if peer_begins else 1, None
        self.turn = time.monotonic()
        self.idle = limits.frame
        self.login = None if peer_begins else self.turn

    def touched(self):
        """A part of a frame came from the peer."""
        if self.begun is None:
            self.begun = time.monotonic()

    def came(self, front):
        """A whole frame came from the peer, which is answered unless it says that more is to come."""
        self.begun = None
        self.turn = time.monotonic()
        self.idle = self.limits.idle or self.limits.frame
        if not asks_no_answer(front):
            self.owed += 1
        if self.login is None and any(word in front for word in (b'saslStart\0', b'speculativeAuthenticate\0')):
            self.login = self.turn

    def sent(self, front):
        """The program wrote a whole frame. Where the limit is one of a server, a login is over that isn't said to go on."""
        self.owed -= 1
        self.turn = time.monotonic()
        if self.limits.idle and (b'conversationId\0' not in front or b'\x08done\0\1' in front):
            self.login = None

    def deadline(self, program_works):
        """When the stream is given up, and why: the program works where a part of what came is still due to it, too."""
        if program_works or self.owed > 0:
            ends = self.turn + self.limits.login, 'the login took too long'
        elif self.begun is not None and self.limits.idle:
            ends = max(self.begun, self.turn) + self.limits.frame, SILENT
        else:
            ends = self.turn + self.idle, SILENT
        return ends if self.login is None else min(ends, (self.login + self.limits.login, 'the login took too long'))

    def left_to_send(self):
        """How long the peer may take what is sent."""
        now = time.monotonic()
        return max(0.001, self.limits.frame if self.login is None else min(self.limits.frame, self.login + self.limits.login - now))


def number_at(front, at):
    """A number of a frame's header."""
    return struct.unpack_from('<i', front, at)[0]


SILENT = 'the peer was silent, or took nothing, too long'


def asks_no_answer(front):
    """Whether a frame is an OP_MSG whose flag moreToCome is set."""
    return len(front) >= 20 and struct.unpack_from('<i', front, 12)[0] == 2013 and bool(front[16] & 2)


class Input:
    """What is due to a program's standard input. It is kept here while the program doesn't read, so that what the program writes is taken
    meanwhile: it may well wait for that before it reads on."""

    def __init__(self, stdin, ready):
        os.set_blocking(stdin.fileno(), False)
        self.stdin, self.ready, self.due, self.ended = stdin, ready, bytearray(), False

    def add(self, piece):
        """A piece more; none where the program has closed its input."""
        if not self.ended:
            self.due += piece
            look_for(self.ready, self.stdin, selectors.EVENT_WRITE, True)

    def end(self):
        """Nothing more is added."""
        self.ended = True
        if not self.due:
            self.stdin.close()

    def write(self):
        """Hands on what the program takes now. Its input is closed where that was the last, or where the program has closed it."""
        try:
            del self.due[:self.stdin.write(self.due) or 0]
        except BrokenPipeError:
            self.due.clear()
            self.ended = True
        if not self.due:
            look_for(self.ready, self.stdin, selectors.EVENT_WRITE, False)
            if self.ended:
                self.stdin.close()


def look_for(ready, stream, event, wanted):
    """Has a selector look for an event of an open stream just where it is wanted."""
    if wanted and stream not in ready.get_map():
        ready.register(stream, event)
    elif not wanted and stream in ready.get_map():
        ready.unregister(stream)


def relay(program, first_line, sock, peer_begins, limits, trace, masked=True, warn=None):
    """Runs a program whose standard input is one line and then what the socket gives, and whose standard output goes to the socket.
    Gives its status and what it wrote to standard error. `Closed` where one of the limits is passed: a whole frame of the peer's is due in
    time, and no more than the limit of a login may pass until a frame is answered, or in a login. Who begins is told."""
    def whole(frames, arrow, piece):
        """Tells the clock of each frame that came whole with this piece, and says it where somebody listens."""
        for front, length in frames.take(piece):
            if frames is back:
                clock.came(front)
                if warn and len(asked) == 1 and asked[0] != (answers := number_at(front, 8)):
                    warn(f'the server answers request {answers}, and {asked[0]} was sent; nothing else looks at that')
            else:
                clock.sent(front)
                asked[:] = [number_at(front, 4)]
            if told:
                told.frame(arrow, front, length)
    asked = []
    keep = CUT if trace else LOOKED_AT
    told = Trace(trace, '<-' if peer_begins else '->', masked) if trace else None
    out, back, clock = Frames(keep), Frames(keep), Clock(limits, peer_begins)
    with children.start([program], stdin=subprocess.PIPE, stdout=subprocess.PIPE, stderr=subprocess.PIPE, bufsize=0) as running, selectors.DefaultSelector() as ready:
        said, open_streams, sending = bytearray(), 2, True
        try:
            given = Input(running.stdin, ready)
            given.add(first_line + b'\n')
            ready.register(running.stdout, selectors.EVENT_READ)
            ready.register(running.stderr, selectors.EVENT_READ)
            while open_streams:
                has_room = not given.ended and len(given.due) < AHEAD
                look_for(ready, sock, selectors.EVENT_READ, has_room)
                waiting = has_room and getattr(sock, 'pending', lambda: 0)() > 0
                ends, why = clock.deadline(bool(given.due) or given.ended)
                left = ends - time.monotonic()
                if left <= 0:
                    raise Closed(why)
                events = [key.fileobj for key, _ in ready.select(0 if waiting else left)]
                if waiting and sock not in events:
                    events.append(sock)
                for stream in events:
                    if stream is running.stdin:
                        given.write()
                    elif stream is sock:
                        piece = from_socket(sock)
                        if piece:
                            given.add(piece)
                            whole(back, '<-', piece)
                            if back.came:
                                clock.touched()
                        elif piece is not None:
                            given.end()
                    else:
                        piece = os.read(stream.fileno(), 65536)
                        if not piece:
                            ready.unregister(stream)
                            open_streams -= 1
                        elif stream is running.stderr:
                            said += piece
                        else:
                            whole(out, '->', piece)
                            sending = sending and send(sock, piece, clock.left_to_send())
            return running.wait(), said.decode('utf-8', 'replace')
        finally:
            children.forget(running)
            if told:
                told.rest('->', bytes(out.front), out.came)
                told.rest('<-', bytes(back.front), back.came)


def from_socket(sock):
    """What the socket has: nothing where it has ended. None where there is nothing yet: what makes a TLS stream ready may be a record of
    TLS itself, with nothing for the program in it. `Closed` where TLS failed: what it carries has no end then."""
    sock.setblocking(False)
    try:
        return sock.recv(65536)
    except (BlockingIOError, InterruptedError, ssl.SSLWantReadError, ssl.SSLWantWriteError):
        return None
    except ssl.SSLError as fault:
        raise Closed(tls_fault(fault)) from fault
    except OSError:
        return b''


def tls_fault(fault):
    """A fault of TLS as a text."""
    return f'TLS failed: {(fault.reason or str(fault)).replace("_", " ").lower()}'


def send(sock, piece, seconds):
    """Sends a whole piece, and tells whether the peer is still there: one that has gone gets no more, and the program is told by the end
    of its stream. `Closed` where the piece wasn't taken in time, since nothing may follow a part of it, and where TLS failed."""
    sock.settimeout(seconds)
    try:
        sock.sendall(piece)
        return True
    except socket.timeout:
        raise Closed(SILENT) from None
    except (ssl.SSLEOFError, ssl.SSLZeroReturnError):
        return False
    except ssl.SSLError as fault:
        raise Closed(tls_fault(fault)) from None
    except OSError:
        return False
