"""What is hidden of frames that are shown: the one place that decides it, for --trace and for --report."""

# The fields whose values log in: the messages of a login, in saslStart, saslContinue, their replies and speculativeAuthenticate; the
# password of a user who is set up; the proof of MONGODB-CR; and the signature of a cluster's time.
SECRETS = (b'payload', b'pwd', b'key', b'signature')

# A compressed frame, in whose bytes no name can be found.
OP_COMPRESSED = 2012

# The messages of SCRAM (RFC 5802, section 7) by the letters of their attributes, and those letters whose values log in: the client's proof
# and the server's signature. A message with others, an extension among them, is hidden whole.
SCRAM = {'nr': 'client first', 'rsi': 'server first', 'crp': 'client final', 'v': 'server final', 'e': 'server error'}
PROOFS = 'pv'

# What stands before a client's first message (RFC 5802, section 5.1): no channel is bound.
GS2_HEADER = 'n,,'


def hides(name):
    """Whether what stands behind these bytes is hidden: those of a key, or what stands before a zero in a frame that can't be read."""
    return name.endswith(SECRETS)


def hides_frame(code, raw):
    """Whether the bytes of a frame that can't be read are hidden: where some of them are."""
    return code == OP_COMPRESSED or any(hides(piece) for piece in raw.split(b'\0'))


def scram(raw, masked):
    """The name of a message of SCRAM, and its attributes as texts, of which those that log in are hidden; None where the bytes are none. A
    password of PLAIN stands behind a zero, and a token in a document, so neither is taken for one."""
    try:
        text = raw.decode()
    except UnicodeDecodeError:
        return None
    attributes = [part.partition('=') for part in text.removeprefix(GS2_HEADER).split(',')]
    letters = ''.join(letter for letter, _, _ in attributes)
    if not text.isprintable() or letters not in SCRAM or any(len(letter) != 1 or not equals for letter, equals, _ in attributes):
        return None
    if text.startswith(GS2_HEADER) != (letters == 'nr'):
        return None
    return SCRAM[letters], [f'{letter}=' + (f'hidden, {len(value)} bytes' if masked and letter in PROOFS else value) for letter, _, value in attributes]
