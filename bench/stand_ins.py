"""What stands outside the validator client in `serve.sh`, `deletions.sh` and `trouble.sh`: a beacon node and a signing service, each a small HTTP server in a
process of its own, and the program itself, whose path is the first word of the command line."""
import asyncio, collections, hashlib, json, multiprocessing, os, re, socket, subprocess, sys, tempfile, time

program = os.path.abspath(sys.argv[1])
GENESIS_ROOT, ZERO, TOKEN = '0x' + '5a' * 32, '0x' + '00' * 32, 'a-token-of-36-characters-0123456789'
GARBLE = 'what no question is answered by'
FORK = {'previous_version': '0x00000001', 'current_version': '0x00000001', 'epoch': '0'}
DATA, VOTES, BLOCKS, SIGN = '/eth/v1/validator/attestation_data', '/eth/v1/beacon/pool/attestations', '/eth/v1/beacon/blocks', '/api/v1/eth2/sign/'
AGGREGATE, AGGREGATES = '/eth/v1/validator/aggregate_attestation', '/eth/v1/validator/aggregate_and_proofs'
SLOT, THIRD = 12, 4
folder = tempfile.mkdtemp()

def key(number):
    return '0x' + (number + 1).to_bytes(48, 'big').hex()

def signature_of(pubkey, root):
    text = (pubkey + root).encode()
    return '0x' + hashlib.sha512(text).hexdigest() + hashlib.sha256(text).hexdigest()

# ---- servers

# A request: when its connection was accepted, when the last byte of its answer was handed over, what it asked, and the status of the answer.
Request = collections.namedtuple('Request', 'begun ended method target body status')

class Listening(socket.socket):
    """Notes when each connection was accepted, by its file number: the loop makes a `Connection` of it some turns later."""
    accepted = {}

    def accept(self):
        link, place = super().accept()
        self.accepted[link.fileno()] = time.time()
        return link, place

class Connection(asyncio.Protocol):
    """Answers one request, one that signs or asks what a committee is to vote after a delay, and notes it."""

    def __init__(self, answer, state, noted):
        self.answer, self.state, self.noted, self.held = answer, state, noted, b''

    def connection_made(self, link):
        self.link, self.begun = link, Listening.accepted.pop(link.get_extra_info('socket').fileno())

    def data_received(self, piece):
        self.held += piece
        head, _, body = self.held.partition(b'\r\n\r\n')
        length = re.search(rb'(?i)\r\ncontent-length: *(\d+)', head)
        if b'\r\n\r\n' not in self.held or len(body) < (int(length[1]) if length else 0):
            return
        method, target, _ = head.split(b'\r\n')[0].decode().split(' ')
        told = json.loads(body) if body else None
        if target == self.state.get('mute'):
            return
        delay = self.state['delay'] if target.startswith((SIGN, DATA)) else 0
        if delay:
            asyncio.get_running_loop().call_later(delay, self.give, method, target, told)
        else:
            self.give(method, target, told)

    def give(self, method, target, told):
        status, answer = self.answer(self.state, method, target, told)
        text = json.dumps(answer).encode() if answer is not None else b''
        self.link.write(b'HTTP/1.1 %d OK\r\nContent-Type: application/json\r\nContent-Length: %d\r\nConnection: close\r\n\r\n' % (status, len(text)) + text)
        self.noted.append(Request(self.begun, time.time(), method, target, told, status))
        self.link.close()

async def answer_all(answer, listening, pipe):
    state, noted = {'delay': 0}, []

    def control():
        told = pipe.recv()
        if told is None:
            pipe.send(list(noted))
            noted.clear()
        else:
            pipe.send(state.update(told))

    asyncio.get_running_loop().add_reader(pipe.fileno(), control)
    server = await asyncio.get_running_loop().create_server(lambda: Connection(answer, state, noted), sock=listening, backlog=128)
    await server.serve_forever()

class Server:
    """Answers requests by what was set, in a process of its own, and hands out what it was asked."""

    def __init__(self, answer):
        listening = Listening(fileno=socket.create_server(('127.0.0.1', 0)).detach())
        self.port = listening.getsockname()[1]
        self.url = 'http://127.0.0.1:%d' % self.port
        self.pipe, other = multiprocessing.Pipe()
        multiprocessing.get_context('fork').Process(target=lambda: asyncio.run(answer_all(answer, listening, other)), daemon=True).start()
        listening.close()

    def set(self, **told):
        self.pipe.send(told)
        self.pipe.recv()

    def take(self):
        self.pipe.send(None)
        return self.pipe.recv()

# ---- the signing service: it holds every key

def sign(state, method, target, body):
    if target == '/eth/v1/keystores' and state.get('takes_no_key'):
        return 400, {'message': 'not taken: ' + json.dumps(body)}
    if target == '/eth/v1/keystores' and state.get('repeats'):
        return 200, {'data': [{'status': 'error', 'message': json.dumps(body)}]} if state['repeats'] == 'in a message' else {'nothing': body}
    if target == '/eth/v1/keystores':
        listed = body.get('keystores') or body.get('pubkeys')
        return 200, {'data': [{'status': 'imported' if method == 'POST' else 'deleted', 'message': ''} for _ in listed], 'slashing_protection': ''}
    return 200, {'signature': signature_of(target[len(SIGN):], body['signingRoot'])}

# ---- the beacon node: what is due is set before each run

def block_at(due, slot, reveal, version='phase0'):
    more = {} if version == 'phase0' else {'sync_aggregate': {'sync_committee_bits': '0x' + '%02x' % (slot % 256) * 64, 'sync_committee_signature': '0x' + '55' * 96}}
    return {'slot': str(slot), 'proposer_index': str(due['blocks'][slot]), 'parent_root': '0x%064x' % slot, 'state_root': ZERO, 'body': {
        'randao_reveal': reveal, 'eth1_data': {'deposit_root': ZERO, 'deposit_count': '0', 'block_hash': ZERO}, 'graffiti': ZERO,
        'proposer_slashings': [], 'attester_slashings': [], 'attestations': [], 'deposits': [], 'voluntary_exits': [], **more}}

def data_at(slot, index='0'):
    return {'slot': str(slot), 'index': index, 'beacon_block_root': '0x%064x' % slot, 'source': {'epoch': '0', 'root': ZERO}, 'target': {'epoch': str(slot // 32), 'root': ZERO}}

def tell(due, method, target, body):
    path, _, query = target.partition('?')
    if path in due.get('garbled', ()):
        return 200, {'data': GARBLE}
    asked = [part.split('=') for part in query.split('&')] if query else []
    if path == '/eth/v1/beacon/genesis':
        return 200, {'data': {'genesis_time': str(due['genesis_time']), 'genesis_validators_root': GENESIS_ROOT, 'genesis_fork_version': '0x00000001'}}
    if path == '/eth/v1/beacon/states/head/fork':
        return 200, {'data': FORK}
    if path == '/eth/v1/node/syncing':
        return 200, {'data': {'is_syncing': False, 'head_slot': '1', 'sync_distance': '0'}}
    if path == '/eth/v1/node/version':
        return 200, {'data': {'version': 'stand-in/1'}}
    if path == '/eth/v1/beacon/states/head/validators':
        return 200, {'data': [{'index': str(int(k, 16) - 1), 'validator': {'pubkey': k}} for _, k in asked]}
    if path.startswith('/eth/v1/validator/duties/proposer/'):
        rows = [{'pubkey': key(n), 'validator_index': str(n), 'slot': str(slot)} for slot, n in due['blocks'].items() if slot // 32 == int(path.split('/')[-1])]
        return 200, {'dependent_root': ZERO, 'data': rows}
    if path.startswith('/eth/v1/validator/duties/attester/'):
        wanted, epoch = {int(i) for i in body}, int(path.split('/')[-1])
        committees = due.get('committees', 1)
        rows = [{'pubkey': key(n), 'validator_index': str(n), 'committee_index': str(n % committees), 'committee_length': str(due.get('committee', 2048)), 'committees_at_slot': str(committees),
                 'validator_committee_index': str(n // committees % 2048), 'slot': str(slot)} for n, slot in due['votes'].items() if n in wanted and slot // 32 == epoch]
        return 200, {'dependent_root': ZERO, 'data': rows}
    if path == DATA:
        return 200, {'data': data_at(int(dict(asked)['slot']), dict(asked)['committee_index'])}
    if path.startswith('/eth/v2/validator/blocks/'):
        slot = int(path.split('/')[-1])
        version = due.get('versions', {}).get(slot, 'phase0')
        return 200, {'version': version, 'data': block_at(due, slot, dict(asked)['randao_reveal'], version)}
    if path == AGGREGATE:
        return 200, {'data': {'aggregation_bits': '0x' + 'ff' * 256 + '01', 'data': {**data_at(int(dict(asked)['slot'])), **due.get('aggregate', {})}, 'signature': '0x' + '77' * 96}}
    if path == AGGREGATES and due.get('takes_no_aggregate'):
        return 503, {'code': 503, 'message': 'takes none'}
    if path in (VOTES, BLOCKS, AGGREGATES):
        due['refuses'] = due.get('refuses', 0) - 1
        return (503, {'code': 503, 'message': 'takes none'}) if due.get('takes_none') or due['refuses'] >= 0 else (200, None)
    return 404, {'code': 404, 'message': 'not here'}

signer, node = Server(sign), Server(tell)

def posted(requests):
    """What was posted to the node: the request, and the vote or block of it."""
    return [(r, r.body[0] if r.target == VOTES else r.body) for r in requests if r.target in (VOTES, BLOCKS)]

def signed(requests):
    """The signatures that the service gave, each with its key and root, but those of reveals."""
    asked = [(r.target[len(SIGN):], r.body['signingRoot']) for r in requests if r.target.startswith(SIGN) and r.body['type'] != 'RANDAO_REVEAL']
    return [(signature_of(*of), *of) for of in asked]

# ---- the program

with socket.socket() as free:
    free.bind(('127.0.0.1', 0))
    port = free.getsockname()[1]

def wanted(what, is_so):
    if not is_so:
        sys.exit('bench: ' + what)

def serve(journal, slots, connections, lanes=4, nodes=None, before=(), signing=None, options=(), token=('--token', TOKEN)):
    """Starts the program with these nodes and this signing service, else those here, after these words of another program."""
    return subprocess.Popen([*before, program, 'serve', '--genesis', GENESIS_ROOT, '--journal', os.path.join(folder, journal), '--signer', signing or signer.url, '--listen', '127.0.0.1:%d' % port, *token,
                             '--slots', str(slots), '--connections', str(connections), '--lanes', str(lanes), *options] + (nodes or [node.url]), stdout=subprocess.PIPE, stderr=subprocess.PIPE, text=True)

def ended(child, status=0):
    out, told = child.communicate()
    wanted('status %d in place of %d: %s %s' % (child.returncode, status, out, told), child.returncode == status)
    return out, told

def sessions(journal, requests):
    text = ''.join(json.dumps(r) + '\n' for r in requests)
    told = subprocess.run([program, 'session', '--genesis', GENESIS_ROOT, '--journal', os.path.join(folder, journal)], input=text, capture_output=True, text=True)
    wanted('session: ' + told.stdout + told.stderr, told.returncode == 0)
    return [json.loads(line) for line in told.stdout.splitlines()]

def is_aggregator(signature, members):
    """Whether a validator with this signature of the slot aggregates the votes of its committee (consensus-specs)."""
    return int.from_bytes(hashlib.sha256(bytes.fromhex(signature[2:])).digest()[:8], 'little') % max(1, members // 16) == 0

def vote_once(journal, count, lanes, connections=0, options=(), peers=None, **due):
    """Starts the program with that many keys, each of which votes in slot 1; gives it, and the moment of the third of that slot. The peers are a signing
    service and a node, those here where none are given."""
    service, asked = peers or (signer, node)
    sessions(journal, [{'op': 'activate', 'pubkey': key(n)} for n in range(count)])
    begun = int(time.time()) - 8
    asked.set(genesis_time=begun, blocks={}, votes={n: 1 for n in range(count)}, **due)
    asked.take(), service.take()
    return serve(journal, 2, connections, lanes, nodes=[asked.url], signing=service.url, options=options), begun + SLOT + THIRD
