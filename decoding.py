"""BSON and the frames of the wire protocol as lines of text, for a person's eyes. Python's standard library alone."""
import struct

import masking

# How many levels of documents are looked into: as many as the proved readers take.
LEVELS = 100

# How many bytes of a frame, or of a server's text, are looked at.
CUT = 65536

# How many letters the line of an array may have; one that is longer has a line for each element.
WIDTH = 100

# How many bytes a line of a dump has, and how many are dumped.
DUMP_LINE, DUMP = 16, 256

HEADER = 16
OP_REPLY, OP_QUERY, OP_MSG = 1, 2004, 2013
OP_CODES = {OP_REPLY: 'OP_REPLY', OP_QUERY: 'OP_QUERY', OP_MSG: 'OP_MSG', masking.OP_COMPRESSED: 'OP_COMPRESSED'}

# The bits of a frame's flags, by its op code.
FLAGS = {
    OP_MSG: {0: 'checksumPresent', 1: 'moreToCome', 16: 'exhaustAllowed'},
    OP_QUERY: {1: 'tailableCursor', 2: 'secondaryOk', 4: 'noCursorTimeout', 5: 'awaitData', 6: 'exhaust', 7: 'partial'},
    OP_REPLY: {0: 'cursorNotFound', 1: 'queryFailure', 3: 'awaitCapable'},
}


class Cut(Exception):
    """What is held of a frame ends before its document does. Its argument is the place up to which it was read."""


def printable(text):
    """A text of the peer's for a terminal, which letters that can't be printed would steer: they stand as escapes."""
    return ''.join(letter if letter.isprintable() else letter.encode('unicode_escape').decode() for letter in text)


def more(count):
    """What stands in the place of bytes that are left out, if any are."""
    return f' .. {count} bytes more' if count else ''


def dump(raw, length):
    """Lines of bytes in hex and as text, of the first of them, and how many more there are."""
    shown_bytes = raw[:DUMP]
    for at in range(0, len(shown_bytes), DUMP_LINE):
        piece = shown_bytes[at:at + DUMP_LINE]
        text = ''.join(chr(byte) if 32 <= byte < 127 else '.' for byte in piece)
        yield f'{piece.hex(" "):<{3 * DUMP_LINE}} {text}'
    if length > len(shown_bytes):
        yield more(length - len(shown_bytes)).strip()


class Reader:
    """Reads a frame, of which the front may be all that is held. ValueError, IndexError or struct.error where the bytes can't be read, `Cut`
    where what is held ends first. `lines` are the text so far, `hidden` the places of what isn't told, `command` the first key."""

    def __init__(self, raw, length, masked):
        self.raw, self.length, self.masked = raw, length, masked
        self.lines, self.hidden, self.command, self.margin = [], [], None, 0

    # -- bytes

    def take(self, at, size, limit):
        """The bytes at a place, which have to end at the limit or before it."""
        if size < 0 or at + size > limit:
            raise ValueError(f'length {size}')
        if at + size > len(self.raw):
            raise Cut(at)
        return self.raw[at:at + size]

    def number(self, form, at, limit):
        return struct.unpack('<' + form, self.take(at, struct.calcsize('<' + form), limit))

    def name(self, at, limit):
        """The bytes of a text that a zero ends, and the place after it."""
        zero = self.raw.find(0, at, limit)
        if zero < 0:
            self.take(at, limit - at, limit)
            raise ValueError('a name without an end')
        return self.raw[at:zero], zero + 1

    # -- frames

    def frame(self):
        """Reads the whole frame behind its header."""
        _, request, response, code = struct.unpack_from('<iiii', self.raw)
        read = {OP_MSG: self.message, OP_QUERY: self.query, OP_REPLY: self.reply}.get(code)
        if read is None:
            raise ValueError(f'op code {code}')
        flags, = self.number('I', HEADER, self.length)
        names = [FLAGS[code].get(bit, f'bit {bit}') for bit in range(32) if flags >> bit & 1]
        self.line(1, f'request {request}, response to {response}, ' + (f'flags {", ".join(names)}' if names else 'no flags'))
        read(flags)

    def message(self, flags):
        """The sections of an OP_MSG, and its checksum."""
        at, end = HEADER + 4, self.length - 4 * (flags & 1)
        if at >= end:
            raise ValueError('no section')
        while at < end:
            kind, at = self.take(at, 1, end)[0], at + 1
            if kind > 1:
                raise ValueError(f'section of kind {kind}')
            at = self.sequence(at, end) if kind else self.document(at, end)
        if flags & 1:
            self.line(1, f'checksum {self.take(end, 4, self.length).hex()}')

    def sequence(self, at, limit):
        """Reads a document sequence, and gives the place after it."""
        size, = self.number('i', at, limit)
        end = at + size
        if size < 5 or end > limit:
            raise ValueError(f'a sequence of length {size}')
        name, at = self.name(at + 4, end)
        self.line(1, f'{printable(name.decode("utf-8", "replace"))}: sequence [')
        self.margin = 2
        while at < end:
            at = self.nested('', at, end, 0, '{}')
        self.margin = 0
        self.line(1, ']')
        return end

    def query(self, _):
        """What follows the flags of an OP_QUERY."""
        name, at = self.name(HEADER + 4, self.length)
        skipped, returned = self.number('ii', at, self.length)
        self.line(1, f'collection {printable(name.decode("utf-8", "replace"))}, skip {skipped}, return {returned}')
        at += 8
        while at < self.length:
            at = self.document(at, self.length)

    def reply(self, _):
        """What follows the flags of an OP_REPLY."""
        cursor, begins, returned = self.number('qii', HEADER + 4, self.length)
        self.line(1, f'cursor {cursor}, from {begins}, {returned} documents')
        at = HEADER + 20
        while at < self.length:
            at = self.document(at, self.length)

    # -- documents

    def indent(self, level):
        return '  ' * (self.margin + level - 1)

    def line(self, level, text):
        """A line of a document at this level, of which the first is 1."""
        self.lines.append(self.indent(level) + text)

    def document(self, at, limit):
        """Reads a document of the first level, and gives the place after it."""
        return self.fields(at, limit, 1, False)

    def nested(self, label, at, limit, level, marks):
        """Reads a document or an array inside another of this level, and gives the place after it."""
        begun = len(self.lines)
        self.line(level, label + marks[0])
        end = self.fields(at, limit, level + 1, marks == '[]')
        inside = self.lines[begun + 1:]
        if not inside:
            self.lines[-1] += marks[1]
        elif marks == '[]' and self.are_short(inside, level + 1):
            self.lines[begun:] = [self.lines[begun] + ', '.join(line.strip() for line in inside) + marks[1]]
        else:
            self.line(level, marks[1])
        return end

    def are_short(self, lines, level):
        """Whether the lines are one for each element, and fit into one."""
        margin = len(self.indent(level))
        return all(line[margin] not in ' ]}' and line[-1] not in '[{' for line in lines) and sum(len(line) for line in lines) <= WIDTH

    def fields(self, at, limit, level, is_array):
        """Reads the fields of the document that begins at a place, and gives the place after it. Its elements have to end where its length
        says: bytes that two documents both claim would be read once for each, twice as often with each level."""
        length, = self.number('i', at, limit)
        end = at + length
        if length < 5 or end > limit or level > LEVELS:
            raise ValueError('a document too short, too long or too deep')
        at += 4
        index = 0
        while kind := self.take(at, 1, end)[0]:
            name, at = self.name(at + 1, end)
            key = printable(name.decode('utf-8', 'replace'))
            if self.command is None:
                self.command = key
            label = '' if is_array and key == str(index) else f'{key}: '
            read = self.secret if masking.hides(name) else self.value
            at = read(label, kind, at, end - 1, level)
            index += 1
        if at != end - 1:
            raise ValueError('a document ends before its length')
        return end

    def secret(self, label, kind, at, limit, level):
        """Reads a value that isn't told, also where it can't be read to its end, but for what a message of SCRAM tells."""
        before = len(self.lines)
        told = None
        try:
            end = self.value(label, kind, at, limit, level)
            told = self.lines[before:]
        finally:
            del self.lines[before:]
        self.hidden.append((at, end))
        message = masking.scram(self.raw[at + 5:end], self.masked) if kind == 0x05 else None
        if message:
            self.line(level, f'{label}SCRAM {message[0]}, {end - at - 5} bytes')
            for attribute in message[1]:
                self.line(level + 1, attribute)
        elif self.masked:
            self.line(level, f'{label}hidden, {end - at} bytes')
        else:
            self.lines += told
        return end

    def value(self, label, kind, at, limit, level):
        """Reads a value, and gives the place after it."""
        if kind in (0x03, 0x04):
            return self.nested(label, at, limit, level, '{}' if kind == 0x03 else '[]')
        text, end = self.plain_value(kind, at, limit)
        self.line(level, label + text)
        return end

    def plain_value(self, kind, at, limit):
        """A value that is no document, as text, and the place after it."""
        if kind in (0x01, 0x10, 0x12):
            form = {0x01: 'd', 0x10: 'i', 0x12: 'q'}[kind]
            return str(self.number(form, at, limit)[0]), at + struct.calcsize('<' + form)
        if kind in (0x02, 0x0D, 0x0E):
            size, = self.number('i', at, limit)
            if size < 1:
                raise ValueError(f'length {size}')
            return repr(self.take(at + 4, size, limit)[:-1].decode('utf-8', 'replace')), at + 4 + size
        if kind == 0x05:
            size, = self.number('i', at, limit)
            piece = self.take(at + 5, size, limit)
            shown_as = repr(piece.decode('ascii')) if piece and all(32 <= byte < 127 for byte in piece) else piece.hex()
            return f'binary {shown_as}', at + 5 + size
        if kind in (0x06, 0x0A):
            return 'null', at
        if kind == 0x07:
            return f'ObjectId {self.take(at, 12, limit).hex()}', at + 12
        if kind == 0x08:
            return ('true' if self.take(at, 1, limit)[0] else 'false'), at + 1
        if kind == 0x09:
            return f'date {self.number("q", at, limit)[0]}', at + 8
        if kind == 0x11:
            increment, seconds = self.number('II', at, limit)
            return f'timestamp {seconds}, {increment}', at + 8
        raise ValueError(f'kind {kind:#x}')


def shown(frame, length=None, masked=True):
    """The first key of a frame's document, if it has one, and its lines: a field each, or its bytes where they can't be read. A front of it may
    be all that is given, beside its length; no more than `CUT` bytes are looked at, and how many are left out is said. What logs in is hidden,
    unless it is asked for."""
    length = len(frame) if length is None else length
    frame = frame[:CUT]
    reader = Reader(frame, length, masked)
    try:
        reader.frame()
    except Cut as cut:
        reader.lines.append(more(length - cut.args[0]).strip())
    except (ValueError, IndexError, struct.error):
        return None, unread(frame, length, masked)
    return reader.command, reader.lines


def unread(frame, length, masked):
    """The lines of a frame that can't be read."""
    _, request, response, code = struct.unpack_from('<iiii', frame)
    head = f'request {request}, response to {response}, op code {code}'
    if masked and masking.hides_frame(code, frame):
        return [head, f'hidden, {length - HEADER} bytes']
    return [head, *dump(frame[HEADER:], length - HEADER)]


def masked_hex(frame):
    """A whole frame in hex, with stars for the digits of what logs in."""
    reader = Reader(frame, len(frame), True)
    try:
        reader.frame()
        places = reader.hidden
    except (ValueError, IndexError, struct.error, Cut):
        places = [(HEADER, len(frame))] if masking.hides_frame(struct.unpack_from('<i', frame.ljust(HEADER, b'\0'), 12)[0], frame) else []
    digits = frame.hex()
    for begin, end in places:
        digits = digits[:2 * begin] + '*' * (2 * (end - begin)) + digits[2 * end:]
    return digits
