"""The inputs of `hostile.sh`: the examples of the repository's own trials, and changes of them; and what its peers say that do not lie."""
import json, os, re, time
from hostile_readings import GENESIS, TOKEN

CRATES = os.path.join(os.path.dirname(os.path.abspath(__file__)), '..', 'crates')

# ---- examples

def lines_of(crate, file='stdin'):
    with open(os.path.join(CRATES, crate, file), encoding='utf-8', newline='\n') as text:
        return text.read().split('\n')

def cases_of(crate, subject):
    return [line[len(subject) + 1:] for line in lines_of(crate) if line.startswith(subject + ' ')]

def of_chain(text):
    """The text, of the chain that is played here."""
    return text.replace('a' * 64, '0' * 64)

def example_files():
    return [of_chain(case).encode() for case in cases_of('record_trials', 'interchange')]

MARKS = {'K1': '0x' + '1' * 96, 'K2': '0x' + '2' * 96, 'K3': '0x' + 'c' * 96, 'K3 in capitals': '0x' + 'C' * 96, 'K4': '0x' + '4' * 96, 'K1 digits': '1' * 96,
         'K2 digits': '2' * 96, 'G0': '0x' + '0' * 64, 'G1': '0x' + '1' * 64, 'Ra': '0x' + 'a' * 64, 'Ra in capitals': '0x' + 'A' * 64, 'Rb': '0x' + 'b' * 64,
         'file': "{'data':[", '/file': "],'metadata':{'genesis_validators_root':'0x%s','interchange_format_version':'5'}}" % ('0' * 64),
         '/file G1': "],'metadata':{'genesis_validators_root':'0x%s','interchange_format_version':'5'}}" % ('1' * 64)}

def filled(text):
    return re.sub('<([^<>]*)>', lambda mark: MARKS.get(mark[1], mark[0]), text).replace("'", '\\"')

def example_lines():
    told = [filled(line[2:]) for line in lines_of('session_trials') if line.startswith('> {')]
    told += [of_chain(case) for case in cases_of('word_trials', 'request') if case.startswith('{') or case.startswith(' ')]
    return [line.encode() for line in dict.fromkeys(told)]

def as_line(data, escaped):
    """A line that merges a file."""
    return json.dumps({'op': 'merge', 'file': data.decode()}, ensure_ascii=escaped).encode()

def example_requests():
    told = []
    for line in lines_of('api_trials'):
        front, mark, rest = line.partition(' > ')
        if mark and front.split(' ')[0] in ('say', 'heard') and 'times=' not in front:
            told.append(rest.replace('|', '\r\n').replace('^', '\xff').encode('latin-1'))
        elif mark and front == 'ask':
            method, _, body = rest.partition(' ')
            told.append(request(method, of_chain(body).encode()))
    told += [spelled(case) for case in cases_of('wire_trials', 'request')]
    return [it for it in dict.fromkeys(told) if it]

def request(method, body):
    return b'%s /eth/v1/keystores HTTP/1.1\r\nAuthorization: Bearer %s\r\nContent-Length: %d\r\n\r\n' % (method.encode(), TOKEN.encode(), len(body)) + body

def spelled(text):
    return text.replace('\\r', '\r').replace('\\n', '\n').encode('latin-1', 'replace')

def response(status, body):
    return b'HTTP/1.1 %d OK\r\nContent-Type: application/json\r\nContent-Length: %d\r\n\r\n' % (status, len(body)) + body

def chunked(status, body, size=40):
    pieces = [body[at:at + size] for at in range(0, len(body), size)]
    return b'HTTP/1.1 %d OK\r\nTransfer-Encoding: chunked\r\n\r\n' % status + b''.join(b'%x\r\n%s\r\n' % (len(it), it) for it in pieces) + b'0\r\n\r\n'

def example_signatures():
    """Responses of a signing service."""
    told = [spelled(case) for case in cases_of('wire_trials', 'response')]
    for case in cases_of('wire_trials', 'signer'):
        setting, _, call = case.partition(' | ')
        kind, _, rest = setting.partition(' ')
        if kind == 'says':
            told.append(spelled(rest))
        elif kind == 'answers' and call.startswith('sign'):
            status, _, body = rest.partition(' ')
            told += [response(int(status), spelled(body)), chunked(int(status), spelled(body))]
    return [it for it in dict.fromkeys(told) if it]

def example_answers():
    """By question the bodies that beacon nodes answer it with."""
    told = {}
    for case in cases_of('wire_trials', 'node'):
        setting, _, call = case.partition(' | ')
        kind, status, body = (setting.split(' ', 2) + ['', ''])[:3]
        if kind == 'answers' and status == '200' and call.startswith('ask ') and body.startswith('{'):
            told.setdefault(call.split(' ')[1], []).append(body.encode())
    return {question: list(dict.fromkeys(bodies)) for question, bodies in told.items()}

# ---- what peers say that do not lie

def as_json(value):
    return response(200, json.dumps(value).encode())

def quiet_node(method, target, body):
    """A node before genesis."""
    path = target.partition('?')[0]
    if path.endswith('/beacon/genesis'):
        return as_json({'data': {'genesis_time': str(int(time.time()) + 864000), 'genesis_validators_root': GENESIS, 'genesis_fork_version': '0x00000000'}})
    if path.endswith('/fork'):
        return as_json({'data': {'previous_version': '0x00000000', 'current_version': '0x00000000', 'epoch': '0'}})
    if path.endswith('/syncing'):
        return as_json({'data': {'is_syncing': False}})
    if path.endswith('/version'):
        return as_json({'data': {'version': 'stand-in/1'}})
    return response(404, b'{}')

def holding_signer(method, target, body):
    listed = json.loads(body)
    count = len(listed.get('keystores') or listed.get('pubkeys') or [])
    return as_json({'data': [{'status': 'imported' if method == 'POST' else 'deleted', 'message': ''}] * count})

SLOT, KEY = 100, '0x' + '1' * 96
ZERO = '0x' + '0' * 64
PATHS = (('genesis', '/beacon/genesis'), ('fork', '/fork'), ('syncing', '/node/syncing'), ('version', '/node/version'), ('validators', '/head/validators'),
         ('proposer', '/duties/proposer/'), ('attester', '/duties/attester/'), ('liveness', '/liveness/'), ('data', '/attestation_data'), ('block', '/validator/blocks/'))

def plain_answers(genesis_time):
    """What a node says that does not lie, by question and epoch."""
    row = {'pubkey': KEY, 'validator_index': '7', 'slot': str(SLOT)}
    block = {'slot': str(SLOT), 'proposer_index': '7', 'parent_root': ZERO, 'state_root': ZERO, 'body': {
        'randao_reveal': '0x' + '0' * 192, 'eth1_data': {'deposit_root': ZERO, 'deposit_count': '0', 'block_hash': ZERO}, 'graffiti': ZERO,
        'proposer_slashings': [], 'attester_slashings': [], 'attestations': [], 'deposits': [], 'voluntary_exits': []}}
    return {'genesis': {'data': {'genesis_time': str(genesis_time), 'genesis_validators_root': GENESIS, 'genesis_fork_version': '0x00000000'}},
            'fork': {'data': {'previous_version': '0x00000000', 'current_version': '0x00000000', 'epoch': '0'}}, 'syncing': {'data': {'is_syncing': False}},
            'version': {'data': {'version': 'stand-in/1'}}, 'validators': {'data': [{'index': '7', 'validator': {'pubkey': KEY}}]},
            'proposer': {'dependent_root': ZERO, 'data': [row]},
            'attester': {'dependent_root': ZERO, 'data': [{**row, 'committee_index': '2', 'committee_length': '128', 'committees_at_slot': '64', 'validator_committee_index': '3'}]},
            'liveness': {'data': [{'index': '7', 'is_live': False}]},
            'data': {'data': {'slot': str(SLOT), 'index': '2', 'beacon_block_root': ZERO, 'source': {'epoch': '2', 'root': ZERO}, 'target': {'epoch': '3', 'root': ZERO}}},
            'block': {'version': 'phase0', 'data': block}}

# ---- changes

NUMBERS = [b'0', b'1', b'-1', b'+5', b'00', b'5, 5', b'9223372036854775807', b'9223372036854775808', b'18446744073709551615', b'18446744073709551616', b'18446744073709551621',
           b'00000000000000000001', b'000000000000000000001', b'99999999999999999999', b'1e3', b'1e999', b'0x5', b'16777216', b'16777217', b'65536', b'65537', b'4294967295',
           b'4294967296', b'576460752303423487', b'576460752303423488', b'FFFFFFFFFFFFFFFF', b'FFFFFFFFFFFFFFFFF', b'1000000', b'1000001', b'128', b'127', b'96', b'32', b'']
PIECES = [b'"', b'\\', b'{', b'}', b'[', b']', b',', b':', b'\x00', b'\x7f', b'\xff', b'\xc3', b'\xed\xa0\x80', b'\xf4\x90\x80\x80', b'\xef\xbb\xbf', b'\\ud800', b'\\u0000', b'\\n',
          b'\r', b'\t', b' ', b'\r\n', b'\r\n\r\n', b';x=y', b'0', b'e', b'null', b'true', b'{}', b'[]', b'""', b'0x', b'//', b'NaN']
FIELDS = [b'Content-Length: 5\r\n', b'Transfer-Encoding: chunked\r\n', b'Transfer-Encoding: gzip, chunked\r\n', b'Content-Encoding: gzip\r\n', b'Content-Encoding: identity\r\n',
          b'Expect: 100-continue\r\n', b'Authorization: Bearer other\r\n', b'A: b\r\n', b' folded\r\n', b'A : b\r\n', b'A: \xff\r\n', b'A: \x01\r\n', b'X: ' + b'y' * 70000 + b'\r\n']
DEPTHS = [1, 2, 60, 110, 120, 124, 125, 126, 127, 128, 129, 300, 5000]

class Changes:
    """Draws changes of bytes."""

    def __init__(self, draw):
        self.draw = draw
        self.ways = [self.flip, self.put, self.drop, self.cut, self.double, self.nest, self.number, self.length, self.swap, self.exchange, self.splice]
        self.kind_ways = [self.number, self.number, self.length, self.exchange, self.exchange, self.exchange, self.nest]

    def range_of(self, data, most=None):
        size = self.draw.choice((1, 1, 2, 4, 16, 64, 400))
        begin = self.draw.randrange(len(data) + 1)
        return begin, min(len(data), begin + min(size, most or size))

    def flip(self, data, others):
        for _ in range(self.draw.choice((1, 1, 1, 2, 8))):
            if data:
                data[self.draw.randrange(len(data))] ^= 1 << self.draw.randrange(8)

    def put(self, data, others):
        begin, end = self.range_of(data, 1)
        data[begin:self.draw.choice((begin, end))] = self.draw.choice((self.draw.choice(PIECES), bytes([self.draw.randrange(256)])))

    def drop(self, data, others):
        begin, end = self.range_of(data)
        del data[begin:end]

    def cut(self, data, others):
        place = self.draw.randrange(len(data) + 1)
        if self.draw.random() < 0.8:
            del data[place:]
        else:
            del data[:place]

    def double(self, data, others):
        begin, end = self.range_of(data)
        times = self.draw.choice((1, 1, 1, 2, 3, 20, 300))
        data[begin:begin] = data[begin:end] * min(times, 1 + 200000 // (1 + end - begin))

    def nest(self, data, others):
        depth = self.draw.choice(DEPTHS)
        first, last = self.draw.choice(((b'[', b']'), (b'{"a":', b'}'), (b'[', b''), (b'[{"a":', b'}]')))
        found = self.tokens(data)
        begin, end = self.draw.choice(found) if found and self.draw.random() < 0.7 else self.range_of(data)
        inner = bytes(data[begin:end]) if self.draw.random() < 0.7 else b'1' if first != b'[' else b''
        data[begin:end] = first * depth + inner + last * depth

    def number(self, data, others):
        found = list(re.finditer(rb'[0-9]+', data))
        if found:
            place = self.draw.choice(found)
            data[place.start():place.end()] = self.draw.choice(NUMBERS)

    def length(self, data, others):
        """Digits of hex that are more or fewer, or a list or text that is longer or shorter."""
        found = list(re.finditer(rb'0x[0-9a-fA-F]+', data))
        if found:
            place = self.draw.choice(found)
            text = place[0]
            data[place.start():place.end()] = self.draw.choice((text[:-1], text[:-2], text + b'0', text + b'00', text.upper(), text[2:], text[:2], text * 2, text[:2] + text[2:].upper()))

    def tokens(self, data):
        return [found.span() for found in re.finditer(rb'"(?:[^"\\]|\\.)*"|[0-9]+|true|false|null', data)]

    def exchange(self, data, others):
        """One text of the input for another, of it or of another example."""
        found = self.tokens(data)
        if found:
            begin, end = self.draw.choice(found)
            other = self.draw.choice(others)
            names = self.tokens(other)
            if names and self.draw.random() < 0.4:
                data[begin:end] = other[slice(*self.draw.choice(names))]
            else:
                data[begin:end] = data[slice(*self.draw.choice(found))]

    def swap(self, data, others):
        a, b = sorted((self.range_of(data), self.range_of(data)))
        if a[1] <= b[0]:
            data[a[0]:b[1]] = data[b[0]:b[1]] + data[a[1]:b[0]] + data[a[0]:a[1]]

    def splice(self, data, others):
        other = self.draw.choice(others)
        begin, end = self.range_of(other)
        place = self.draw.randrange(len(data) + 1)
        data[place:place] = other[begin:end]

    def field(self, data, others):
        ends = [found.end() for found in re.finditer(rb'\n', data)]
        if ends:
            place = self.draw.choice(ends[:6])
            data[place:place] = self.draw.choice(FIELDS) * self.draw.choice((1, 1, 1, 2, 70))

    def edge(self, data, others):
        """A number of four or eight bytes, its lowest byte first, at an edge."""
        size = self.draw.choice((4, 8))
        if len(data) >= size:
            frames = [found.end() for found in re.finditer(rb'\x01(?=.\x00\x00\x00)', data, re.S)]
            place = self.draw.choice(frames) if frames and self.draw.random() < 0.5 else self.draw.randrange(len(data) - size + 1)
            number = self.draw.choice((0, 1, 2, 48, 49, 50, 2 ** 31, 2 ** 32 - 1, 2 ** 63, 2 ** 64 - 1, len(data), len(data) - place, self.draw.randrange(300)))
            data[place:place + size] = (number % 2 ** (8 * size)).to_bytes(size, 'little')

    def changed(self, example, others, more=()):
        """The example after some changes: in half of all cases of whole texts and numbers alone, after which more can still be read."""
        data = bytearray(example)
        ways = (self.ways if self.draw.random() < 0.5 else self.kind_ways) + [getattr(self, it) for it in more]
        for _ in range(self.draw.choice((1, 1, 1, 2, 2, 3, 6))):
            self.draw.choice(ways)(data, others)
        return bytes(data)

# ---- inputs near the limits

def padded(front, piece, rest, size):
    """Bytes of about this size: a piece as often as there is room."""
    return front + piece * ((size - len(front) - len(rest)) // len(piece)) + rest

def large_texts(size):
    """JSON texts of about this size that a reader may take much memory for."""
    many = b','.join(b'"%x":%d' % (n, n % 7) for n in range(size // 12))
    return {'lists': padded(b'[[]', b',[]', b']', size), 'numbers': padded(b'[0', b',0', b']', size), 'brackets': b'[' * size, 'objects': padded(b'[{}', b',{}', b']', size),
            'one text': padded(b'"', b'a', b'"', size), 'escapes': padded(b'"', b'\\u0041', b'"', size), 'texts': padded(b'[""', b',""', b']', size),
            'members': b'{' + many + b'}', 'digits': padded(b'[', b'9', b']', size), 'spaces': padded(b'', b' ', b'{}', size), 'nulls': padded(b'[null', b',null', b']', size),
            'the same member': padded(b'{"a":0', b',"a":0', b'}', size)}
