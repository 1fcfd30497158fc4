"""What the inputs of `hostile.sh` mean, read plainly from docs/FORMATS.md and not from the code. The reading of interchange files is that
of `interchange_reference.sh`, and that of the record of a key the one of `reference.sh`: both are taken from these scripts."""
import hashlib, json, os, re

HERE = os.path.dirname(os.path.abspath(__file__))
GENESIS = '0x' + '0' * 64
TOKEN = 'TOKEN'
BODY_LIMIT, HEAD_LIMIT, FIELD_LIMIT = 16777216, 65536, 64
FILE_LIMIT, KEY_LIMIT, ROW_LIMIT = 268435456, 65536, 65536

def taken_from(script, first, last):
    """The names that the lines of a script define from the one that begins so on, up to the one that begins so."""
    with open(os.path.join(HERE, script)) as file:
        text = file.read()
    begin = text.index('\n' + first) + 1
    names = {'json': json, 're': re, 'GENESIS': GENESIS, 'compact': compact}
    exec('import math\n' + text[begin:text.index('\n' + last, begin)], names)
    return names

def compact(value):
    return json.dumps(value, separators=(',', ':'), sort_keys=True, ensure_ascii=False)

files = taken_from('interchange_reference.sh', '# ---- the plain reading', '# ---- random files')
records = taken_from('reference.sh', '# a block is (slot, root)', '# a random request')
Refused, value_of = files['Refused'], files['value_of']

class Unread(Exception):
    """What cannot be read, with why."""

def json_of(data):
    """The JSON value that bytes write."""
    try:
        return value_of(data)
    except Refused as refused:
        raise Unread('not_utf8' if 'UTF-8' in str(refused) else 'json')

# ---- interchange files

def root_or_none(root):
    return root if root is None else root.lower()

def file_of(data):
    """The genesis root of a file, and by key its blocks and votes as `reference.sh` has them. Else Unread, with the members of a refusal."""
    if len(data) > FILE_LIMIT:
        raise Unread({'reason': 'too_long', 'len': str(len(data))})
    try:
        genesis, books = files['file_of'](data)
    except Refused as refused:
        raise Unread(refusal(str(refused)))
    entries = {}
    for key, (blocks, votes) in books.items():
        entries[key] = ([(slot, root_or_none(root)) for slot, root in blocks], [(source, target, root_or_none(root)) for target, source, root in votes])
    return genesis, entries

def refusal(text):
    if text == 'the file is no UTF-8 text':
        return {'reason': 'not_utf8'}
    if text == 'the file is no JSON value':
        return {'reason': 'json'}
    for end, reason in ((' is missing or of another kind', 'missing'), (' is no number', 'bad_number'), (' has not the hex digits of its length', 'bad_hex')):
        if text.endswith(end):
            return {'reason': reason, 'member': text[1:-len(end) - 1]}
    return {'reason': 'version', 'text': text[len('the format version is `'):-len('`, not `5`')]}

# ---- what a client keeps

class Client:
    """The keys of a client, with what the answers to requests are."""

    def __init__(self, genesis=GENESIS):
        self.genesis, self.keys, self.states = genesis, {}, {}
        # (what the signer gave up with a deletion, and did not take in again)
        self.lacking = set()

    def key(self, key):
        self.states.setdefault(key, 'known')
        return self.keys.setdefault(key, records['Key']())

    def merge(self, genesis, books):
        """Merges a file; else why not."""
        if genesis != self.genesis:
            return {'reason': 'genesis_differs', 'kept': self.genesis, 'given': genesis}
        new = sum(key not in self.keys for key in books)
        if len(self.keys) + new > KEY_LIMIT:
            return {'reason': 'too_many_keys', 'have': str(len(self.keys)), 'new': str(new)}
        for key, book in books.items():
            self.key(key).files.append(book)

    def propose(self, key, message):
        """What becomes of a block (slot, root) or a vote (source, target, root)."""
        if self.states.get(key) != 'active':
            return {'answer': 'refused', 'reason': 'not_active' if key in self.keys else 'unknown'}
        refused = self.keys[key].verdict(message)
        if refused is not None:
            return {'answer': 'refused', **refused}
        own = self.keys[key].blocks if len(message) == 2 else self.keys[key].votes
        if message not in own:
            own.append(message)
        if key in self.lacking:
            return {'answer': 'unsigned', 'cause': 'no_key'}
        return records['signed_answer'](key, message[-1])

    def file(self, keys):
        """The text of the file of those of these keys that are kept."""
        books = [(key, self.keys[key].export()) for key in sorted(set(keys)) if key in self.keys]
        entry_of = records['entry_of']
        data = [{'pubkey': k, 'signed_blocks': [entry_of(e) for e in b], 'signed_attestations': [entry_of(e) for e in v]} for k, (b, v) in books]
        return compact({'data': data, 'metadata': {'genesis_validators_root': self.genesis, 'interchange_format_version': '5'}})

    def shown(self):
        """The lines of `show`."""
        dash = lambda floor: '-' if floor is None else floor
        return ''.join('%s %s blocks %d votes %d floor_slot %s floor_source %s floor_target %s\n' % (
            key, self.states[key], *(len(e) for e in kept.kept()), *(dash(f) for f in kept.floors())) for key, kept in sorted(self.keys.items()))

    def take_in(self, text):
        """What becomes of a keystore, where the signing service takes in every key."""
        try:
            value = json_of(text.encode('utf-8', 'surrogatepass'))
        except Unread:
            value = None
        found = value.get('pubkey') if isinstance(value, dict) else None
        if not isinstance(found, str) or not re.fullmatch('(0x)?[0-9a-fA-F]{96}', found):
            return {'message': 'bad keystore', 'status': 'error'}
        key = '0x' + found[-96:].lower()
        was = self.states.get(key)
        self.key(key)
        self.states[key] = 'active'
        if was != 'active':
            self.lacking.discard(key)
        return {'message': '', 'status': 'duplicate' if was == 'active' else 'imported'}

    def give_up(self, key):
        was = self.states.get(key)
        if was == 'active':
            self.states[key] = 'closed'
            self.lacking.add(key)
        return {'message': '', 'status': {None: 'not_found', 'active': 'deleted'}.get(was, 'not_active')}

    def delete(self, keys):
        """The list of what becomes of keys, and the text of the file that comes with it."""
        outcomes = [(key, self.give_up(key)) for key in keys]
        return [it for _, it in outcomes], self.file([key for key, it in outcomes if it['status'] != 'not_found'])

# ---- files that are merged by a run

def end_of_merge(client, data):
    """The status and the output of a merge, and what it is counted as."""
    if len(data) > FILE_LIMIT:
        return 9, 'validator: input too long: limit %d\n' % FILE_LIMIT, 'too_long'
    try:
        genesis, books = file_of(data)
    except Unread as unread:
        return refused_merge(unread.args[0])
    refused = client.merge(genesis, books)
    if refused and refused['reason'] == 'genesis_differs':
        return 7, 'validator: genesis differs: kept %s, given %s\n' % (refused['kept'], genesis), 'genesis_differs'
    if refused:
        return refused_merge(refused)
    return 0, 'merged %d\n' % len(books), 'read, merged'

def refused_merge(told):
    words = ''.join(' %s %s' % it for it in told.items() if it[0] != 'reason')
    return 12, 'validator: file refused: %s%s\n' % (told['reason'], words), ' '.join(told[it] for it in ('reason', 'member') if it in told)

# ---- members of an object

def member(value, name, is_so, reading):
    """The member, by a reading that may be None."""
    found = reading(value[name]) if name in value and is_so(value[name]) else None
    if found is None:
        raise Unread(name)
    return found

def a_text(value):
    return isinstance(value, str)

def a_number(value, name):
    return member(value, name, a_text, lambda text: int(text) if re.fullmatch('[0-9]{1,20}', text) and int(text) < 2 ** 64 else None)

def some_hex(value, name, length):
    return member(value, name, a_text, lambda text: text.lower() if re.fullmatch('0x[0-9a-fA-F]{%d}' % (2 * length), text) else None)

def some_keys(value, name):
    def reading(items):
        return [it.lower() for it in items] if all(a_text(it) and re.fullmatch('0x[0-9a-fA-F]{96}', it) for it in items) else None
    return member(value, name, lambda it: isinstance(it, list), reading)

def some_texts(value, name):
    return member(value, name, lambda it: isinstance(it, list), lambda items: items if all(map(a_text, items)) else None)

def an_object(value, name):
    return member(value, name, lambda it: isinstance(it, dict), lambda it: it)

def a_flag(value, name):
    if not isinstance(value.get(name), bool):
        raise Unread(name)
    return value[name]

def header_in(value, name):
    inner = an_object(value, name)
    return [a_number(inner, 'slot'), a_number(inner, 'proposer_index')] + [some_hex(inner, it, 32) for it in ('parent_root', 'state_root', 'body_root')]

def checkpoint_in(value, name):
    inner = an_object(value, name)
    return a_number(inner, 'epoch'), some_hex(inner, 'root', 32)

def details_in(value, name):
    inner = an_object(value, name)
    return [a_number(inner, 'slot'), a_number(inner, 'index'), some_hex(inner, 'beacon_block_root', 32), checkpoint_in(inner, 'source'), checkpoint_in(inner, 'target')]

# ---- roots that are signed (consensus-specs), under the fork of zeros

def chunk(value):
    return value.to_bytes(32, 'little') if isinstance(value, int) else bytes.fromhex(value[2:])

def tree(chunks):
    while len(chunks) & (len(chunks) - 1):
        chunks = chunks + [bytes(32)]
    while len(chunks) > 1:
        chunks = [hashlib.sha256(chunks[i] + chunks[i + 1]).digest() for i in range(0, len(chunks), 2)]
    return chunks[0]

def signing_root(fields, kind, genesis):
    root = tree([tree([chunk(it) for it in field]) if isinstance(field, tuple) else chunk(field) for field in fields])
    domain = bytes([kind, 0, 0, 0]) + tree([bytes(32), chunk(genesis)])[:28]
    return '0x' + tree([root, domain]).hex()

# ---- lines of a session

def message_in(value, genesis):
    """The block or vote that a line gives."""
    if value['op'] == 'block':
        if 'header' in value:
            fields = header_in(value, 'header')
            return fields[0], signing_root(fields, 0, genesis)
        return a_number(value, 'slot'), some_hex(value, 'signing_root', 32)
    if 'attestation' in value:
        fields = details_in(value, 'attestation')
        return fields[3][0], fields[4][0], signing_root(fields, 1, genesis)
    return a_number(value, 'source_epoch'), a_number(value, 'target_epoch'), some_hex(value, 'signing_root', 32)

def asked_in(value, genesis):
    """What an object asks for, by its op, but for its moment."""
    op = value.get('op')
    if op in ('compact', 'list'):
        return op, ()
    if op == 'merge':
        return op, (member(value, 'file', a_text, lambda it: it),)
    if op in ('activate', 'prune'):
        return op, (some_hex(value, 'pubkey', 48),)
    if op == 'import':
        keystores = some_texts(value, 'keystores')
        if len(some_texts(value, 'passwords')) != len(keystores):
            raise Unread('passwords')
        return op, (keystores, member(value, 'slashing_protection', a_text, lambda it: it) if 'slashing_protection' in value else None)
    if op == 'delete':
        return op, (some_keys(value, 'pubkeys'),)
    if op == 'export':
        return op, (some_keys(value, 'pubkeys') if 'pubkeys' in value else None,)
    if op == 'live':
        return op, (some_hex(value, 'pubkey', 48), a_number(value, 'of'), a_flag(value, 'is_live'))
    if op in ('block', 'vote'):
        return op, (some_hex(value, 'pubkey', 48), message_in(value, genesis))
    raise Unread('op')

def line_of(data, genesis):
    """What a line asks for. Else Unread, with the first member that is absent or has no reading."""
    try:
        value = json_of(data)
    except Unread:
        raise Unread('line')
    if not isinstance(value, dict):
        raise Unread('line')
    if not isinstance(value.get('op'), str):
        raise Unread('op')
    asked = asked_in(value, genesis)
    if 'epoch' in value and a_number(value, 'epoch') > 576460752303423487:
        raise Unread('epoch')
    return asked

def merged(client, text):
    """The answer to a file, and whether it was merged."""
    try:
        genesis, books = file_of(text.encode('utf-8', 'surrogatepass'))
    except Unread as unread:
        return {'answer': 'refused', **unread.args[0]}, False
    refused = client.merge(genesis, books)
    return ({'answer': 'merged', 'keys': str(len(books))}, True) if refused is None else ({'answer': 'refused', **refused}, False)

def answer_to(client, data):
    """The answer to a line; of a compaction without its sizes."""
    try:
        op, asked = line_of(data, client.genesis)
    except Unread as unread:
        return {'answer': 'refused', 'member': unread.args[0], 'reason': 'bad_request'}
    if op == 'merge':
        return merged(client, asked[0])[0]
    if op == 'activate':
        client.key(asked[0])
        client.states[asked[0]] = 'active'
        return {'answer': 'active'}
    if op == 'prune':
        if asked[0] not in client.keys:
            return {'answer': 'refused', 'reason': 'unknown'}
        client.keys[asked[0]].prune()
        return {'answer': 'pruned'}
    if op == 'import':
        refused, is_merged = merged(client, asked[1]) if asked[1] is not None else (None, True)
        return {'answer': 'imported', 'data': [client.take_in(it) for it in asked[0]]} if is_merged else refused
    if op == 'delete':
        data, text = client.delete(asked[0])
        return {'answer': 'deleted', 'data': data, 'slashing_protection': text}
    if op == 'export':
        return {'answer': 'exported', 'file': client.file(client.keys if asked[0] is None else asked[0])}
    if op == 'list':
        return {'answer': 'keys', 'data': sorted(key for key, state in client.states.items() if state == 'active')}
    if op == 'live':
        state = client.states.get(asked[0])
        return {'answer': 'noted'} if state == 'active' else {'answer': 'refused', 'reason': 'not_active' if state else 'unknown'}
    if op == 'compact':
        return {'answer': 'compacted'}
    return client.propose(*asked)

# ---- HTTP messages

TCHAR, URI, VALUE = rb"[0-9A-Za-z!#$%&'*+\-.^_`|~]", rb'[^\x00-\x20\x7f]', rb'[^\x00-\x08\x0a-\x1f\x7f]'
FIELD = TCHAR + rb'++:' + VALUE + rb'*+\r?\n'
REQUEST = re.compile(rb'(?:\r?\n)*+(' + TCHAR + rb'++) (' + URI + rb'++) HTTP/1\.[01]\r?\n((?:' + FIELD + rb')*+)\r?\n')
RESPONSE = re.compile(rb'(?:\r?\n)*+HTTP/1\.[01] ([0-9]{3})(?: ' + VALUE + rb'*+)?\r?\n((?:' + FIELD + rb')*+)\r?\n')
SECTION = re.compile(rb'((?:' + FIELD + rb')*+)\r?\n')
CHUNK = re.compile(rb'([0-9A-Fa-f]{1,16})[ \t]*+(?:;[^\r\n]*+)?\r\n')

def front(form, data, place, fields=None):
    """What has the form at this place, within the limits; `fields` is the number of the group that has the fields."""
    found = form.match(data, place)
    if not found or found.end() - place > HEAD_LIMIT or (fields and found[fields].count(b'\n') > FIELD_LIMIT):
        return None
    return found

def fields_of(text):
    """The fields, each a name in small letters and a value without the white space around it."""
    pairs = [line.partition(b':') for line in text.split(b'\n')[:-1]]
    return [(name.lower(), (value[:-1] if value.endswith(b'\r') else value).strip(b' \t')) for name, _, value in pairs]

def chunks_of(data, place):
    body = b''
    while True:
        line = front(CHUNK, data, place)
        if not line:
            raise Unread('bad body')
        place, size = line.end(), int(line[1], 16)
        if size == 0:
            if not front(SECTION, data, place, 1):
                raise Unread('bad body')
            return body
        if size > BODY_LIMIT - len(body):
            raise Unread('body too long')
        if data[place + size:place + size + 2] != b'\r\n':
            raise Unread('bad body')
        body, place = body + data[place:place + size], place + size + 2

def body_of(fields, data, place, to_end):
    """The body after a head."""
    for name, value in fields:
        if name == b'content-encoding' and value.lower() != b'identity':
            raise Unread('encoded body: ' + value.decode('utf-8', 'replace'))
    lengths = [value for name, value in fields if name == b'content-length']
    codings = [value.lower() for name, value in fields if name == b'transfer-encoding']
    if codings:
        if lengths or codings != [b'chunked']:
            raise Unread('bad body')
        return chunks_of(data, place)
    if not lengths:
        if to_end and len(data) - place > BODY_LIMIT:
            raise Unread('body too long')
        return data[place:] if to_end else b''
    if not all(re.fullmatch(rb'[0-9]{1,20}', it) and int(it) < 2 ** 64 for it in lengths) or len(set(map(int, lengths))) > 1:
        raise Unread('bad body')
    size = int(lengths[0])
    if size > BODY_LIMIT:
        raise Unread('body too long')
    if len(data) - place < size:
        raise Unread('bad body')
    return data[place:place + size]

def response_of(data):
    """The status and the body that bytes spell."""
    place = 0
    for _ in range(9):
        head = front(RESPONSE, data, place, 2)
        if not head:
            raise Unread('bad head')
        place, status = head.end(), int(head[1])
        if not 100 <= status < 200:
            return status, body_of(fields_of(head[2]), data, place, True)
    raise Unread('bad head')

# ---- the Keymanager API

def checked(head):
    """The fields of a request whose head passes the checks; else Unread with the status and the text."""
    if not head:
        raise Unread(400, 'bad head')
    try:
        head[2].decode('utf-8')
    except UnicodeDecodeError:
        raise Unread(400, 'bad head')
    if head[2].partition(b'?')[0] != b'/eth/v1/keystores':
        raise Unread(404, 'no route')
    if head[1] not in (b'GET', b'POST', b'DELETE'):
        raise Unread(405, 'no method')
    fields = fields_of(head[3])
    tokens = [value[7:] for name, value in fields if name == b'authorization' and value[:7].lower() == b'bearer ']
    if not tokens:
        raise Unread(401, 'no token')
    if tokens[0] != TOKEN.encode():
        raise Unread(403, 'wrong token')
    return fields

def body_asked(method, body):
    """What the body of a request asks for."""
    if method == b'GET':
        return 'list', ()
    try:
        value = json_of(body)
    except Unread:
        value = None
    if not isinstance(value, dict):
        raise Unread('body')
    if method == b'DELETE':
        return 'delete', (some_keys(value, 'pubkeys'),)
    keystores, passwords = some_texts(value, 'keystores'), some_texts(value, 'passwords')
    protection = value.get('slashing_protection')
    if protection is not None and not isinstance(protection, str):
        raise Unread('slashing_protection')
    return 'import', (keystores, passwords, protection)

def request_of(data):
    """What a request asks for; else Unread with the status and the text of its reply."""
    head = front(REQUEST, data, 0, 3)
    fields = checked(head)
    try:
        body = body_of(fields, data, head.end(), False)
    except Unread as unread:
        raise Unread(413 if unread.args[0] == 'body too long' else 400, unread.args[0])
    try:
        asked, of = body_asked(head[1], body)
    except Unread as unread:
        raise Unread(400, 'bad member: ' + unread.args[0])
    if asked == 'import' and len(of[0]) != len(of[1]):
        raise Unread(400, 'lists differ: %d keystores, %d passwords' % (len(of[0]), len(of[1])))
    return asked, of

def reply_to(client, data):
    """The status and the body of the reply to a request."""
    try:
        asked, of = request_of(data)
        if asked == 'list':
            return 200, {'data': [{'derivation_path': '', 'readonly': False, 'validating_pubkey': key} for key, state in sorted(client.states.items()) if state == 'active']}
        if asked == 'delete':
            outcomes, text = client.delete(of[0])
            return 200, {'data': outcomes, 'slashing_protection': text}
        if of[2] is not None:
            answer, is_merged = merged(client, of[2])
            if not is_merged and answer['reason'] == 'too_many_keys':
                raise Unread(500, 'too_many_keys')
            if not is_merged:
                raise Unread(400, 'protection refused: ' + answer['reason'])
        return 200, {'data': [client.take_in(it) for it in of[0]]}
    except Unread as unread:
        return unread.args[0], {'message': unread.args[1]}

# ---- answers of a signing service

def signature_in(body):
    """The signature that a body writes, or None."""
    text = body.strip(b' \r\n')
    if re.fullmatch(rb'0x[0-9a-fA-F]{192}', text):
        return text.decode().lower()
    try:
        value = json_of(body)
        return some_hex(value, 'signature', 96) if isinstance(value, dict) else None
    except Unread:
        return None

def signed_by(data, root):
    """The answer of a session to a proposal of this root, where the signing service says these bytes."""
    try:
        status, body = response_of(data)
    except Unread:
        return {'answer': 'unsigned', 'body': '', 'cause': 'bad_answer'}
    if status == 404:
        return {'answer': 'unsigned', 'cause': 'no_key'}
    if status != 200:
        return {'answer': 'unsigned', 'cause': 'denied', 'status': str(status)}
    signature = signature_in(body)
    if signature is None:
        return {'answer': 'unsigned', 'body': body[:256].hex(), 'cause': 'bad_answer'}
    return {'answer': 'signed', 'signature': signature, 'signing_root': root}

# ---- answers of a beacon node

def rows_in(value, reading):
    items = member(value, 'data', lambda it: isinstance(it, list), lambda it: it)
    if not all(isinstance(it, dict) for it in items):
        raise Unread('data')
    return [reading(it) for it in items]

def distinct(items):
    if len(set(items)) != len(items):
        raise Unread('rows')

def duties_in(value, epoch, reading):
    some_hex(value, 'dependent_root', 32)
    rows = rows_in(value, reading)
    if len(rows) > ROW_LIMIT or any(slot // 32 != epoch for slot, _ in rows):
        raise Unread('rows')
    return rows

def proposer(row):
    key = some_hex(row, 'pubkey', 48)
    a_number(row, 'validator_index')
    return a_number(row, 'slot'), key

def attester(row):
    key = some_hex(row, 'pubkey', 48)
    for name in ('validator_index', 'committee_index', 'committees_at_slot'):
        a_number(row, name)
    length, place = a_number(row, 'committee_length'), a_number(row, 'validator_committee_index')
    if length > 2048 or place >= length:
        raise Unread('rows')
    return a_number(row, 'slot'), key

# the containers of phase 0, a list with its limit, bytes by their number
NUMBER, HASH, SIGNATURE = 'number', 32, 96
DETAILS = {'slot': NUMBER, 'index': NUMBER, 'beacon_block_root': HASH, 'source': {'epoch': NUMBER, 'root': HASH}, 'target': {'epoch': NUMBER, 'root': HASH}}
HEADER = {'message': {'slot': NUMBER, 'proposer_index': NUMBER, 'parent_root': HASH, 'state_root': HASH, 'body_root': HASH}, 'signature': SIGNATURE}
INDEXED = {'attesting_indices': (NUMBER, 0, 2048), 'data': DETAILS, 'signature': SIGNATURE}
BLOCK = {'slot': NUMBER, 'proposer_index': NUMBER, 'parent_root': HASH, 'state_root': HASH, 'body': {
    'randao_reveal': SIGNATURE, 'eth1_data': {'deposit_root': HASH, 'deposit_count': NUMBER, 'block_hash': HASH}, 'graffiti': HASH,
    'proposer_slashings': ({'signed_header_1': HEADER, 'signed_header_2': HEADER}, 0, 16), 'attester_slashings': ({'attestation_1': INDEXED, 'attestation_2': INDEXED}, 0, 2),
    'attestations': ({'aggregation_bits': 'bits', 'data': DETAILS, 'signature': SIGNATURE}, 0, 128),
    'deposits': ({'proof': (HASH, 33, 33), 'data': {'pubkey': 48, 'withdrawal_credentials': HASH, 'amount': NUMBER, 'signature': SIGNATURE}}, 0, 16),
    'voluntary_exits': ({'message': {'epoch': NUMBER, 'validator_index': NUMBER}, 'signature': SIGNATURE}, 0, 16)}}

def fits(shape, value):
    if isinstance(shape, dict):
        return isinstance(value, dict) and all(name in value and fits(inner, value[name]) for name, inner in shape.items())
    if isinstance(shape, tuple):
        return isinstance(value, list) and shape[1] <= len(value) <= shape[2] and all(fits(shape[0], it) for it in value)
    if not isinstance(value, str):
        return False
    if shape == NUMBER:
        return bool(re.fullmatch('[0-9]{1,20}', value)) and int(value) < 2 ** 64
    if shape == 'bits':
        found = re.fullmatch('0x((?:[0-9a-fA-F]{2})+)', value)
        return bool(found) and not value.endswith('00') and 4 * len(found[1]) - 8 + int(found[1][-2:], 16).bit_length() - 1 <= 2048
    return bool(re.fullmatch('0x[0-9a-fA-F]{%d}' % (2 * shape), value))

def is_readable(question, epoch, data):
    """Whether a node's answer to a question can be read."""
    try:
        status, body = response_of(data)
        if not 200 <= status <= 299:
            return False
        value = json_of(body)
        if not isinstance(value, dict):
            return False
        if question == 'genesis':
            inner = an_object(value, 'data')
            a_number(inner, 'genesis_time'), some_hex(inner, 'genesis_validators_root', 32)
        elif question == 'fork':
            inner = an_object(value, 'data')
            some_hex(inner, 'previous_version', 4), some_hex(inner, 'current_version', 4), a_number(inner, 'epoch')
        elif question == 'syncing':
            a_flag(an_object(value, 'data'), 'is_syncing')
        elif question == 'validators':
            rows_in(value, lambda row: (a_number(row, 'index'), some_hex(an_object(row, 'validator'), 'pubkey', 48)))
        elif question == 'liveness':
            rows_in(value, lambda row: (a_number(row, 'index'), a_flag(row, 'is_live')))
        elif question == 'proposer':
            distinct([slot for slot, _ in duties_in(value, epoch, proposer)])
        elif question == 'attester':
            distinct([key for _, key in duties_in(value, epoch, attester)])
        elif question == 'data':
            details = details_in(value, 'data')
            return details[3][0] <= details[4][0]
        elif question == 'block':
            return value.get('version') == 'phase0' and fits(BLOCK, value.get('data'))
        return True
    except Unread:
        return False

# ---- journals

MAGIC = b'VKHJRN01'

class Cut(Exception):
    pass

class Bytes:
    """Bytes that are taken from the front."""

    def __init__(self, data):
        self.data, self.place = data, 0

    def take(self, count):
        if len(self.data) - self.place < count:
            raise Cut
        self.place += count
        return self.data[self.place - count:self.place]

    def number(self):
        return int.from_bytes(self.take(8), 'little')

    def flag(self):
        flag = self.take(1)[0]
        if flag > 1:
            raise Cut
        return flag

    def root(self):
        return '0x' + self.take(32).hex() if self.flag() else None

def item_of(left):
    """The next item of a payload."""
    tag, key = left.take(1)[0], None
    if tag not in (1, 2, 3, 4, 5):
        raise Cut
    key = '0x' + left.take(48).hex()
    if tag == 1:
        return tag, key, (left.number(), left.root())
    if tag == 2:
        return tag, key, (left.number(), left.number(), left.root())
    if tag == 3:
        slot = left.number() if left.flag() else None
        return tag, key, (slot, (left.number(), left.number()) if left.flag() else (None, None))
    if len(left.data) != 49:
        raise Cut
    return tag, key, None

def batch_of(payload, start):
    """The items of a payload that begins at this offset."""
    left, items, begun = Bytes(payload), [], 0
    while left.place < len(payload) or not items:
        begun = left.place
        try:
            items.append(item_of(left))
        except Cut:
            raise Unread('damaged', start + begun, payload[begun] if begun < len(payload) else None)
    return items

def frames_of(data):
    """The payloads from the first gate on, each with its offset."""
    gate = 41
    while data[gate] == 1:
        if len(data) < gate + 5:
            raise Unread('damaged', len(data), None)
        size = int.from_bytes(data[gate + 1:gate + 5], 'little')
        if size == 0:
            raise Unread('damaged', gate + 1, 0)
        if len(data) < gate + 5 + size:
            raise Unread('damaged', len(data), None)
        yield gate + 5, data[gate + 5:gate + 5 + size]
        gate += 5 + size
        if len(data) <= gate:
            raise Unread('damaged', len(data), None)

def journal_file(data, genesis):
    """The generation of a file and its items, None where it is not begun; else Unread."""
    if len(data) <= 1 or data[0] != 1:
        return None
    for place in range(1, min(9, len(data))):
        if data[place] != MAGIC[place - 1]:
            raise Unread('damaged', place, data[place])
    if len(data) <= 41:
        raise Unread('damaged', len(data), None)
    if '0x' + data[9:41].hex() != genesis:
        raise Unread('differs', '0x' + data[9:41].hex(), None)
    generation, items = 0, []
    for number, (start, payload) in enumerate(frames_of(data)):
        if number == 0 and len(payload) == 9 and payload[0] == 6:
            generation = int.from_bytes(payload[1:], 'little')
        else:
            items += batch_of(payload, start)
    return generation, items

class Floors:
    """What a journal has of a key, by what `reference.sh` says of the entries that count."""

    def __init__(self):
        self.blocks, self.votes, self.floor = set(), set(), [None, None, None]

    def floors(self):
        return tuple(self.floor)

    def kept(self):
        slot, source, target = self.floor
        return ([e for e in self.blocks if slot is None or e[0] >= slot],
                [e for e in self.votes if target is None or e[1] >= target or e[0] > source])

def replayed(items, genesis):
    client = Client(genesis)
    for tag, key, of in items:
        client.states.setdefault(key, 'known')
        kept = client.keys.setdefault(key, Floors())
        if tag == 1:
            kept.blocks.add(of)
        elif tag == 2:
            kept.votes.add(of)
        elif tag == 3:
            kept.floor = [new if old is None else old if new is None else max(old, new) for old, new in zip(kept.floor, (of[0], *of[1]))]
        else:
            client.states[key] = 'active' if tag == 4 else 'closed'
    return client

def opened(first, second, genesis):
    """What `show` writes of a journal of two files, with its status."""
    found = []
    for name, data in (('', first), ('in b ', second)):
        try:
            found.append(journal_file(data, genesis))
        except Unread as unread:
            why, at, byte = unread.args
            if why == 'differs':
                return 7, 'validator: genesis differs: kept %s, given %s\n' % (at, genesis)
            return 6, 'validator: damaged %sat %d: %s\n' % (name, at, 'end' if byte is None else '%02x' % byte)
    begun = [it for it in found if it is not None]
    items = max(begun, key=lambda it: it[0])[1] if begun else []
    return 0, replayed(items, genesis).shown()

def after_opening(first, second):
    """The first file once a journal was opened: where none of the two was begun it is made."""
    if any(len(it) > 1 and it[0] == 1 for it in (first, second)):
        return first
    return b'\x01' + MAGIC + bytes(32) + b'\x00' + first[42:]
