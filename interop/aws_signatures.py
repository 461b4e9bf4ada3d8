#!/usr/bin/env python3
"""The rows of signatures that the tests of mongo_aws keep, by botocore's Signature Version 4.

usage: interop/aws_signatures.py               signs what each stored row says anew, and compares
       interop/aws_signatures.py COUNT SEED    prints so many random rows, as the tests write them

It isn't part of the gate. It needs botocore (Debian: python3-botocore).

status: 0  each stored row is what botocore signs, or the rows were printed
        1  a row isn't; or botocore isn't there
        3  unknown words
"""
import base64
import datetime
import os
import random
import re
import sys

try:
    import botocore
    from botocore.auth import SigV4Auth
    from botocore.awsrequest import AWSRequest
    from botocore.credentials import Credentials
except ImportError:
    botocore = None

TOP = os.path.dirname(os.path.dirname(os.path.realpath(__file__)))
ROWS = os.path.join(TOP, 'crates', 'mongo_aws_tests', 'src', 'tests', 'signatures.rt')
TABLE = re.compile(r'const SIGNATURES: &str =\s+"([^"]*)";')
BODY = 'Action=GetCallerIdentity&Version=2011-06-15'

# Four hundred years of the calendar, after which it repeats. Python's begins with the year 1, ours with the year 0.
CYCLE = datetime.timedelta(days=146097)
EPOCH = datetime.datetime(1970, 1, 1)


def date_of(moment):
    """The date of so many milliseconds since 1970, in the basic format of ISO 8601."""
    cycles = 1 if moment < 0 else 0
    shown = EPOCH + cycles * CYCLE + datetime.timedelta(milliseconds=moment)
    return '%04d%s' % (shown.year - 400 * cycles, shown.strftime('%m%dT%H%M%SZ'))


def region_of(host):
    labels = host.split('.')
    return 'us-east-1' if host == 'sts.amazonaws.com' or len(labels) == 1 else labels[1]


def signed(access_key, secret_key, token, moment, host, nonce):
    """The date, the region and the signature, as botocore signs the request."""
    date, region = date_of(moment), region_of(host)
    headers = {
        'Content-Length': str(len(BODY)),
        'Content-Type': 'application/x-www-form-urlencoded',
        'Host': host,
        'X-Amz-Date': date,
        'X-MongoDB-GS2-CB-Flag': 'n',
        'X-MongoDB-Server-Nonce': base64.b64encode(nonce).decode(),
    }
    if token:
        headers['X-Amz-Security-Token'] = token
    request = AWSRequest(method='POST', url='https://sts.amazonaws.com/', data=BODY, headers=headers)
    request.context['timestamp'] = date
    signer = SigV4Auth(Credentials(access_key, secret_key, token), 'sts', region)
    text = signer.string_to_sign(request, signer.canonical_request(request))
    return date, region, signer.signature(text, request)


def row_of(words):
    """A row of the table, of its first seven words."""
    access_key, secret_key, token, moment, host, first, second = words
    nonce = bytes([int(first)] * 32 + [int(second)] * 32)
    answer = signed(access_key, secret_key, None if token == '-' else token, int(moment), '' if host == '-' else host, nonce)
    return '%s => %s' % (' '.join(words), ' '.join(answer))


def stored_rows():
    with open(ROWS, encoding='utf-8') as file:
        text = file.read()
    return TABLE.search(text).group(1).splitlines()


def random_word(source, most):
    visible = [chr(byte) for byte in range(33, 127) if chr(byte) not in '"\\']
    word = ''.join(source.choice(visible) for _ in range(source.randint(1, most)))
    return 'x' if word in ('-', '=>') else word


def random_host(source):
    letters = 'abcdefghijklmnopqrstuvwxyzABCDEFGHIJKLMNOPQRSTUVWXYZ0123456789-_'
    label = lambda: ''.join(source.choice(letters) for _ in range(source.randint(1, 12)))
    labels = [label() for _ in range(source.randint(1, 5))]
    host = source.choice(['sts.amazonaws.com', 'sts.%s.amazonaws.com' % label(), '.'.join(labels)])
    return 'a' if host == '-' else host


def random_words(source):
    token = source.choice(['-', random_word(source, 300)])
    moment = source.randint(-62167219200000, 253370764799999)
    return [random_word(source, 40), random_word(source, 90), token, str(moment), random_host(source), str(source.randint(0, 255)), str(source.randint(0, 255))]


def main(words):
    if len(words) not in (0, 2) or not all(word.isdigit() for word in words):
        print(__doc__, file=sys.stderr)
        return 3
    if botocore is None:
        print("botocore isn't installed: python3-botocore", file=sys.stderr)
        return 1
    if words:
        source = random.Random(int(words[1]))
        for _ in range(int(words[0])):
            print(row_of(random_words(source)))
        return 0
    rows = stored_rows()
    wrong = [row for row in rows if row_of(row.split(' => ')[0].split()) != row]
    for row in wrong:
        print('botocore signs otherwise: %s' % row)
    print('%d rows, %d of them otherwise, by botocore %s' % (len(rows), len(wrong), botocore.__version__))
    return 1 if wrong or not rows else 0


if __name__ == '__main__':
    sys.exit(main(sys.argv[1:]))
