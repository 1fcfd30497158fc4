"""The inputs of `hostile.sh` that are near the limits, each by its name."""
import json
import hostile_inputs as inputs
import hostile_readings as reading
from hostile_readings import GENESIS, TOKEN, compact

# ---- files and lines

def lines(text, name):
    yield 'a line of ' + name, text
    yield 'a line with ' + name, b'{"op":"list","more":' + text + b'}'
    yield 'a line whose op is ' + name, b'{"op":' + text + b'}'
    yield 'a file of %s in a line' % name, inputs.as_line(text, True)[:reading.BODY_LIMIT]

FRONT, REST = b'{"metadata":{"interchange_format_version":"', b'","genesis_validators_root":"%s"},"data":[' % GENESIS.encode()

def file_of_keys(count):
    return FRONT + b'5' + REST + b','.join(b'{"pubkey":"0x%096x"}' % n for n in range(count)) + b']}'

def files(size):
    """Files of about this size, those of as many keys as may be kept and of one more, and one above the limit."""
    for name, text in inputs.large_texts(size).items():
        yield 'a file of ' + name, text
        yield 'a file with ' + name, FRONT + b'5' + REST + b'],"more":' + text + b'}'
        yield 'a file whose blocks are ' + name, FRONT + b'5' + REST + b'{"pubkey":"0x' + b'1' * 96 + b'","signed_blocks":' + text + b'}]}'
    yield 'a file of a long version', inputs.padded(FRONT, b'x', REST + b']}', size)
    yield 'a file of keys', file_of_keys(reading.KEY_LIMIT)
    yield 'a file of too many keys', file_of_keys(reading.KEY_LIMIT + 1)
    yield 'a file of one key often', inputs.padded(FRONT + b'5' + REST + b'{"pubkey":"0x' + b'1' * 96 + b'"}', b',{"pubkey":"0x' + b'1' * 96 + b'"}', b']}', size)
    yield 'a file of blocks', FRONT + b'5' + REST + b'{"pubkey":"0x' + b'1' * 96 + b'","signed_blocks":[' + b','.join(b'{"slot":"%d"}' % n for n in range(size // 18)) + b']}]}'
    yield 'a file too long', b' ' * (reading.FILE_LIMIT + 1)

# ---- requests

def requests(text, name):
    yield 'a body of ' + name, inputs.request('POST', text)
    yield 'a body with ' + name, inputs.request('DELETE', b'{"pubkeys":[],"more":' + text + b'}')
    yield 'keystores of ' + name, inputs.request('POST', b'{"passwords":[],"keystores":' + text + b'}')
    yield 'a refused body of ' + name, inputs.request('POST', text).replace(TOKEN.encode(), b'other')

def import_of_keys(count):
    return inputs.request('POST', json.dumps({'keystores': [], 'passwords': [], 'slashing_protection': file_of_keys(count).decode()}).encode())

def heads():
    for name, field in (('one field', b'X: ' + b'y' * 65000), ('fields', (b'X: ' + b'y' * 1000 + b'\r\n') * 60 + b'X: y'), ('too many fields', b'X: y\r\n' * 70), ('a long field', b'X: ' + b'y' * 70000)):
        yield 'a head of ' + name, inputs.request('GET', b'').replace(b'\r\n\r\n', b'\r\n' + field + b'\r\n\r\n')
    yield 'a head of empty lines', b'\n' * 60000 + inputs.request('GET', b'')
    yield 'chunks of a byte', inputs.request('POST', b'').replace(b'Content-Length: 0', b'Transfer-Encoding: chunked') + b'1\r\n[\r\n' * 200000 + b'0\r\n\r\n'
    yield 'chunks with extensions', inputs.request('POST', b'').replace(b'Content-Length: 0', b'Transfer-Encoding: chunked') + (b'1;' + b'x' * 60000 + b'\r\n[\r\n') * 60 + b'0\r\n\r\n'

# ---- responses of a signing service

def responses(text, name):
    yield 'a response of ' + name, inputs.response(200, text)
    yield 'a response with ' + name, inputs.response(200, b'{"signature":' + text + b'}')

def head_of_response(status, size):
    """A head of that many bytes, with as many fields as it may have."""
    front = b'HTTP/1.1 %d Wait\r\n' % status + (b'X: ' + b'y' * 1000 + b'\r\n') * (reading.FIELD_LIMIT - 1) + b'X: '
    return inputs.padded(front, b'y', b'\r\n\r\n', size)

def chunks_of_lines(body, size):
    """The body in chunks of four bytes, each of whose lines has that many bytes."""
    pieces = [body[at:at + 4] for at in range(0, len(body), 4)]
    lines = [inputs.padded(b'%x;' % len(piece), b'x', b'\r\n', size) + piece + b'\r\n' for piece in pieces]
    return b'HTTP/1.1 200 OK\r\nTransfer-Encoding: chunked\r\n\r\n' + b''.join(lines) + inputs.padded(b'0;', b'x', b'\r\n', size) + b'\r\n'

def signatures():
    """A signature after interim responses, and in chunks, at the limits of what is read and above them."""
    body = compact({'signature': '0x' + 'ab' * 96}).encode()
    for count, size in ((8, reading.HEAD_LIMIT), (9, reading.HEAD_LIMIT), (8, reading.HEAD_LIMIT + 1)):
        yield 'a response after %d interim heads of %d bytes' % (count, size), b''.join(head_of_response(100 + n, size) for n in range(count)) + inputs.response(200, body)
    for size in (reading.HEAD_LIMIT, reading.HEAD_LIMIT + 1):
        yield 'a response whose chunks have lines of %d bytes' % size, chunks_of_lines(body, size)

# ---- answers of a node

def duties(plain, count, epoch):
    """The plain answer to a question for duties, with that many rows of this epoch, each of another key."""
    row = plain['data'][0]
    rows = [row] + [{**row, 'pubkey': '0x%096x' % n, 'slot': str(32 * epoch + n % 32)} for n in range(count - 1)]
    return compact({**plain, 'data': rows}).encode()

def answers(size, plain, epoch):
    """What a node says to some questions in a run, by question."""
    for question, count in (('attester', reading.ROW_LIMIT), ('attester', reading.ROW_LIMIT + 1), ('proposer', reading.ROW_LIMIT + 1)):
        yield '%d %s rows' % (count, question), {question: duties(plain[question], count, epoch)}
    for name, text in inputs.large_texts(size).items():
        yield '%s in place of rows' % name, {question: b'{"dependent_root":"%s","data":%s}' % (GENESIS.encode(), text) for question in ('validators', 'proposer', 'attester')}

# ---- journals

def journals(size):
    head, key = b'\x01' + reading.MAGIC + bytes(32), b'\x11' * 48
    def journal(payload, times=1):
        frame = b'\x01' + len(payload).to_bytes(4, 'little') + payload
        return head + frame * times + b'\x00'
    yield 'a journal of activations', journal(b'\x04' + key, size // 54)
    yield 'a journal of blocks', head + b''.join(b'\x01' + (58).to_bytes(4, 'little') + b'\x01' + key + n.to_bytes(8, 'little') + b'\x00' for n in range(size // 63)) + b'\x00'
    yield 'a journal of one batch', journal(b''.join(b'\x02' + key + n.to_bytes(8, 'little') + (n + 1).to_bytes(8, 'little') + b'\x00' for n in range(size // 66)))
    yield 'a journal of rubbish', journal(b'\x01' * size)
    yield 'a journal that is cut', head + b'\x01\xff\xff\xff\xff' + b'\x01' * size
    yield 'a journal after its gate', head + b'\x00' + b'\x01' * size
