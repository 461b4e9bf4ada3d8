"""What the program mongo_connect reports, as one JSON object."""


def text_of(hexadecimal):
    """A text of the report: its bytes in hex, `empty`, or `-` where there is none."""
    if hexadecimal == '-':
        return None
    return '' if hexadecimal == 'empty' else bytes.fromhex(hexadecimal).decode('utf-8', 'replace')


def number_of(word):
    return None if word == '-' else int(word)


def connection(told, logs_in):
    """A connection, by the report's lines. `logged_in` is false at an arbiter, which holds no users."""
    kind, count = told['type'][0], told['mechs'][0]
    sizes = [int(size) for size in told['sizes']]
    return {
        'connected': True,
        'logged_in': logs_in and kind != 'RsArbiter',
        'type': kind,
        'wire_versions': None if told['wire'][0] == '-' else [int(version) for version in told['wire']],
        'mechanisms': None if count == '-' else [text_of(name) for name in told['mechs'][1:]],
        'session_timeout_seconds': number_of(told['session'][0]),
        'max_bson_object_size': sizes[0],
        'max_write_batch_size': sizes[1],
        'max_message_size_bytes': sizes[2],
        'hello_ok': told['hello-ok'][0] == 'true',
        'service_id': None if told['service'][0] == '-' else told['service'][0],
        'generation': int(told['generation'][1]),
        'server_connection_id': number_of(told['server-id'][0]),
    }


def refusal(told, why, step):
    """A refusal, with its sentence and what to do next."""
    return {
        'connected': False,
        'during': 'hello' if told['phase'][0] == 'PreHello' else 'login',
        'kind': told['kind'][0],
        'reason': None if told['reason'][0] == '-' else told['reason'][0],
        'code': number_of(told['code'][0]),
        'text': text_of(told['text'][0]),
        'why': why,
        'next': step,
    }
