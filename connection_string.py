"""A connection string of MongoDB (`mongodb://..`) with one host, as the words of mongo_connect."""
import re
from urllib.parse import unquote

# The options that are read, by their names in lower case, as names compare without regard to case: the word that each stands for.
TEXTS = {'authsource': 'source', 'authmechanism': 'mechanism', 'appname': 'app_name', 'tlscafile': 'tls_ca', 'tlscertificatekeyfile': 'tls_certificate'}
FLAGS = {'tls': 'tls', 'ssl': 'tls', 'loadbalanced': 'load_balanced'}

# Their users belong to `$external`, whatever database the string names.
EXTERNAL = ('MONGODB-X509', 'MONGODB-AWS', 'MONGODB-OIDC')


class Wrong(ValueError):
    """What is wrong with a connection string, or not supported; it never holds a password."""


def decoded(text, what):
    """A text whose percent codes are undone; each has to be one, and what they spell has to be UTF-8."""
    if re.search('%(?![0-9A-Fa-f]{2})', text):
        raise Wrong(f'{what} has a % that no two hex digits follow: write % as %25')
    try:
        return unquote(text, errors='strict')
    except UnicodeDecodeError:
        raise Wrong(f'{what} has percent codes that are no UTF-8') from None


def user_info(text):
    """The user and the password, of which each may be absent."""
    user, colon, password = text.partition(':')
    if ':' in password or '@' in text:
        raise Wrong('the user and the password have : as %3A and @ as %40')
    if not user:
        raise Wrong('the user before @ is empty')
    said = {'user': decoded(user, 'the user')}
    if colon:
        said['password'] = decoded(password, 'the password')
    return said


def host_of(text):
    """The one host, with its port where one is named; a Unix socket's path has its slashes as %2F."""
    if ',' in text:
        raise Wrong('several hosts are not supported: name one')
    if not text:
        raise Wrong('there is no host')
    return decoded(text, 'the host')


def options_of(text):
    """The options, by the words that they stand for."""
    said = {}
    for option in filter(None, text.split('&')):
        name, equals, value = option.partition('=')
        key = name.lower()
        if not equals or not value:
            raise Wrong(f'the option {name} has no value')
        value = decoded(value, f'the option {name}')
        if key in FLAGS:
            if value not in ('true', 'false'):
                raise Wrong(f'the option {name} is true or false')
            word, value = FLAGS[key], value == 'true'
        elif key in TEXTS:
            word = TEXTS[key]
        elif key == 'directconnection' and value == 'true':
            continue
        else:
            raise Wrong(f'the option {name} is not supported' + (f' as {value}' if key == 'directconnection' else ''))
        if said.setdefault(word, value) != value:
            raise Wrong(f'the option {name} stands twice, with two values')
    return said


def read(text):
    """What a connection string says, by the words of mongo_connect: `host`, and `password` where it has one."""
    scheme, found, rest = text.partition('://')
    if scheme == 'mongodb+srv':
        raise Wrong('mongodb+srv is not supported: name the host itself, as mongodb://HOST')
    if scheme != 'mongodb' or not found:
        raise Wrong('a connection string begins with mongodb://')
    authority, _, options = rest.partition('?')
    authority, _, database = authority.partition('/')
    info, at, hosts = authority.rpartition('@')
    said = {'host': host_of(hosts)}
    if at:
        said |= user_info(info)
    said |= options_of(options)
    if said.get('tls') is False and ('tls_ca' in said or 'tls_certificate' in said):
        raise Wrong('tls=false stands beside a file for TLS')
    if said.get('mechanism') == 'MONGODB-X509' and 'password' in said:
        raise Wrong('MONGODB-X509 takes no password')
    if database and said.get('mechanism') not in EXTERNAL:
        said.setdefault('source', decoded(database, 'the database'))
    return said
