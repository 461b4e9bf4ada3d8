"""Why a stream to a server couldn't be opened, or failed: a sentence, and what to do next."""
import errno
import socket
import ssl

# Faults of the system, by their number.
SYSTEM = {
    errno.ECONNREFUSED: ('nothing listens at this address', 'is the server running, and is this its port?'),
    errno.ENOENT: ('there is no such socket', 'is the server running, and is this its path?'),
    errno.EACCES: ('this user may not open the socket', 'ask who runs the server'),
    errno.ENETUNREACH: ('no way leads to this address', 'look at the network, or at the address'),
    errno.EHOSTUNREACH: ('no way leads to this address', 'look at the network, or at the address'),
    errno.ECONNRESET: ('the server ended the connection at once', 'does it know this address, and does it want --tls?'),
}

# Faults of a certificate, by OpenSSL's number of them.
CERTIFICATE = {
    10: ('the server\'s certificate has expired', 'ask who runs the server'),
    18: ('the server\'s certificate is signed by itself', 'name it with --tls-ca if you trust it'),
    19: ('the server\'s certificate is signed by an authority that isn\'t trusted', 'name that with --tls-ca if you trust it'),
    20: ('the server\'s certificate is signed by an authority that isn\'t trusted', 'name that with --tls-ca if you trust it'),
    21: ('the server\'s certificate is signed by an authority that isn\'t trusted', 'name that with --tls-ca if you trust it'),
}
OTHER_NAME = (62, 64)

# Faults of TLS, by a part of OpenSSL's name of them.
TLS = {
    'CERTIFICATE_REQUIRED': ('the server wants a client certificate', 'name one with --tls-certificate'),
    'UNKNOWN_CA': ('the server doesn\'t trust the client\'s certificate', 'name another with --tls-certificate'),
    'WRONG_VERSION_NUMBER': ('the server doesn\'t speak TLS here', 'leave out --tls, or look at the port'),
    'UNEXPECTED_EOF': ('the server ended the stream where TLS was to go on', 'does it speak TLS on this port? Else leave out --tls'),
    'HTTP_REQUEST': ('the server doesn\'t speak TLS here', 'leave out --tls, or look at the port'),
}


def told(fault):
    """The sentence and the next step. OpenSSL's file names and line numbers stay out."""
    if isinstance(fault, ssl.SSLCertVerificationError):
        if fault.verify_code in OTHER_NAME:
            return 'the server\'s certificate is of another name', 'name the host as the certificate does'
        return CERTIFICATE.get(fault.verify_code, (f'the server\'s certificate is refused: {fault.verify_message}', 'ask who runs the server'))
    if isinstance(fault, ssl.SSLError):
        reason = fault.reason or ''
        return next((known for part, known in TLS.items() if part in reason), (f'TLS failed: {reason.replace("_", " ").lower() or "for no reason that is told"}', 'look at the server\'s log'))
    if isinstance(fault, socket.gaierror):
        return 'no address is known for this name', 'look at the name'
    if isinstance(fault, TimeoutError):
        return 'the server didn\'t answer in time', 'is the address right? --seconds allows more'
    if isinstance(fault, UnicodeError):
        return 'this is no name of a host', 'look at the name'
    return SYSTEM.get(fault.errno, (fault.strerror or str(fault), 'look at the network, or at the address'))


def names_in(certificate):
    """The names that a certificate is of, as `getpeercert` gives it."""
    return ', '.join(name for _, name in certificate.get('subjectAltName', ())) or 'none'
