"""What --trace says of a stream: each frame as lines, and bytes that are no frame with a guess at what they are. Python's standard library
alone."""
import struct
import time

import decoding
import masking

# How many letters of a command's name are shown.
NAME = 80

# What a stream begins with that isn't the wire protocol's, and what that tells.
BEGINNINGS = (
    (b'HTTP/', 'it answered HTTP'),
    (b'GET ', 'it asks by HTTP'),
    (b'POST ', 'it asks by HTTP'),
    (b'PUT ', 'it asks by HTTP'),
    (b'HEAD ', 'it asks by HTTP'),
    (b'OPTIONS ', 'it asks by HTTP'),
    (b'CONNECT ', 'it asks by HTTP'),
    (b'PRI * HTTP/2', 'it asks by HTTP/2'),
    (b'PROXY ', 'a line of the PROXY protocol: a load balancer stands before the client'),
    (b'\r\n\r\n\0\r\nQUIT\n', 'a header of the PROXY protocol: a load balancer stands before the client'),
    (b'SSH-', 'it speaks SSH'),
    (b'220 ', 'it greets as a server of mail or FTP'),
    (b'220-', 'it greets as a server of mail or FTP'),
    (b'* OK', 'it greets as a server of mail'),
    (b'+OK', 'it greets as a server of mail'),
    (b'-ERR', 'it refuses as Redis does'),
    (b'-DENIED', 'it refuses as Redis does'),
    (b'\x16\x03', 'a TLS handshake: it wants TLS'),
    (b'\x17\x03', 'data of TLS'),
)

# Alerts of TLS by their number (RFC 8446, section 6).
ALERTS = {
    0: 'close_notify', 10: 'unexpected_message', 20: 'bad_record_mac', 22: 'record_overflow', 40: 'handshake_failure', 42: 'bad_certificate',
    43: 'unsupported_certificate', 44: 'certificate_revoked', 45: 'certificate_expired', 46: 'certificate_unknown', 47: 'illegal_parameter',
    48: 'unknown_ca', 49: 'access_denied', 50: 'decode_error', 51: 'decrypt_error', 70: 'protocol_version', 71: 'insufficient_security',
    80: 'internal_error', 86: 'inappropriate_fallback', 90: 'user_canceled', 109: 'missing_extension', 110: 'unsupported_extension',
    112: 'unrecognized_name', 113: 'bad_certificate_status_response', 115: 'unknown_psk_identity', 116: 'certificate_required',
    120: 'no_application_protocol',
}


def guess(raw):
    """What bytes that are no frame may be; None where they begin as nothing that is known here."""
    if raw[:2] == b'\x15\x03':
        return f'a TLS alert, {ALERTS.get(raw[6], raw[6])}' if len(raw) >= 7 else 'a TLS alert'
    for beginning, told in BEGINNINGS:
        if raw.startswith(beginning):
            return told
    # A greeting of MySQL and MariaDB: its length in three bytes, a zero, and the version 10 of its protocol.
    if raw[3:5] == b'\0\x0a':
        return 'it greets as MySQL does'
    return None


def fault(raw):
    """What keeps bytes from being a frame."""
    if len(raw) < decoding.HEADER:
        return 'it is shorter than a header'
    length, _, _, code = struct.unpack_from('<iiii', raw)
    return f'its length is {length}' if length < decoding.HEADER else f'op code {code} is none that is known here'


def is_frame(raw):
    """Whether bytes begin with a header of the wire protocol."""
    if len(raw) < decoding.HEADER:
        return False
    length, _, _, code = struct.unpack_from('<iiii', raw)
    return length >= decoding.HEADER and code in decoding.OP_CODES


class Trace:
    """Says each frame of a stream: its command, its form, its length, how many milliseconds came before it, and its fields. `asks` is the arrow
    of the side that sends commands."""

    def __init__(self, say, asks, masked):
        self.say, self.asks, self.masked = say, asks, masked
        self.asked, self.before, self.begun = None, time.monotonic(), set()

    def frame(self, arrow, front, length):
        """Says a whole frame, of which the front is given."""
        if not is_frame(front):
            self.rest(arrow, front, length)
            return
        self.begun.add(arrow)
        command, lines = decoding.shown(front, length, self.masked)
        _, request, response, code = struct.unpack_from('<iiii', front)
        if arrow == self.asks:
            name = command[:NAME] if command else 'a frame'
            self.asked = request, name
        elif self.asked and self.asked[0] == response:
            name = f'reply to {self.asked[1]}'
        else:
            name = f'reply to request {response}'
        self.tell(f'{arrow} {name} ({decoding.OP_CODES[code]}, {length} bytes', lines)

    def rest(self, arrow, front, came):
        """Says the bytes behind the last whole frame, if there are any."""
        if not came:
            return
        if is_frame(front):
            length = struct.unpack_from('<i', front)[0]
            _, lines = decoding.shown(front, length, self.masked)
            self.tell(f'{arrow} a frame that is cut ({came} of its {length} bytes', lines)
            return
        known = guess(front)
        # What follows frames and is nothing that is known may be the rest of one, with what logs in.
        hidden = masking.hides_frame(None, front) or (known is None and arrow in self.begun)
        lines = [f'hidden, {came} bytes'] if self.masked and hidden else decoding.dump(front, came)
        self.tell(f'{arrow} no frame: {known or fault(front)} ({came} bytes', lines)

    def tell(self, head, lines):
        now = time.monotonic()
        self.say('\n    '.join([f'{head}, {1000 * (now - self.before):.1f} ms)', *lines]))
        self.before = now
