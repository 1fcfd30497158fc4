"""What stands around the signing proxy in `proxy.sh`: a signing service in a process of its own, clients, requests and the roots that are signed for them, and
what of all that was signed is slashable, each by the public rules only."""
import bisect, collections, hashlib, heapq, itertools, json, multiprocessing, pickle, random, re, select, socket, time

# The root of mainnet's genesis validators, and of another chain's, of which no version is known.
GENESIS, OTHER_GENESIS = '0x4b363db94e286120d76eb905340fdd4e54bfe9f06bf33ff6cf5ad27f511bfe95', '0x' + '5a' * 32
ZERO, TOKEN = '0x' + '00' * 32, 'a-token-of-36-characters-0123456789'
FORK = {'previous_version': '0x04000000', 'current_version': '0x05000000', 'epoch': '10'}
# Forks of mainnet (consensus-specs, configs), and the epoch from which on exits keep Capella's version (EIP-7044).
CAPELLA, DENEB_EPOCH = '0x03000000', 269568
DENEB = {'previous_version': CAPELLA, 'current_version': '0x04000000', 'epoch': str(DENEB_EPOCH)}
ELECTRA = {'previous_version': '0x04000000', 'current_version': '0x05000000', 'epoch': '364032'}
SIGN, KEYSTORES, KEYS = '/api/v1/eth2/sign/', '/eth/v1/keystores', '/api/v1/eth2/publicKeys'
forked = multiprocessing.get_context('fork')

def key(number):
    return '0x' + (number + 1).to_bytes(48, 'big').hex()

def signature_of(pubkey, root):
    text = (pubkey + root).encode()
    return '0x' + hashlib.sha512(text).hexdigest() + hashlib.sha256(text).hexdigest()

# ---- roots (consensus-specs, simple serialize)

def sha(data):
    return hashlib.sha256(data).digest()

def merkle(chunks):
    """The root over these chunks, as many as a power of two has with those of zeros."""
    layer = list(chunks)
    while len(layer) & (len(layer) - 1):
        layer.append(bytes(32))
    while len(layer) > 1:
        layer = [sha(left + right) for left, right in zip(layer[::2], layer[1::2])]
    return layer[0]

def number(text):
    return int(text).to_bytes(8, 'little').ljust(32, b'\0')

def octets(text):
    return bytes.fromhex(text[2:])

def vector(text):
    """The root of the bytes that the text has."""
    held = octets(text)
    return merkle([held[at:at + 32].ljust(32, b'\0') for at in range(0, len(held), 32)])

def bits(text, limit):
    """The root of a list of bits, of which the limit says how many there are at most, and which the last bit that is set ends."""
    held = int.from_bytes(octets(text), 'little')
    count = held.bit_length() - 1
    held = (held ^ 1 << count).to_bytes(limit // 8, 'little')
    return sha(merkle([held[at:at + 32] for at in range(0, len(held), 32)]) + count.to_bytes(32, 'little'))

def root_of_checkpoint(point):
    return merkle([number(point['epoch']), octets(point['root'])])

def root_of_vote(vote):
    return merkle([number(vote['slot']), number(vote['index']), octets(vote['beacon_block_root']), root_of_checkpoint(vote['source']), root_of_checkpoint(vote['target'])])

def root_of_header(header):
    return merkle([number(header['slot']), number(header['proposer_index'])] + [octets(header[name]) for name in ('parent_root', 'state_root', 'body_root')])

def root_of_contribution(it):
    inner = it['contribution']
    root = merkle([number(inner['slot']), octets(inner['beacon_block_root']), number(inner['subcommittee_index']), octets(inner['aggregation_bits']).ljust(32, b'\0'), vector(inner['signature'])])
    return merkle([number(it['aggregator_index']), root, vector(it['selection_proof'])])

def root_of_aggregate(it):
    """Of the forks up to Deneb, or from Electra on, which has committee bits."""
    inner, is_electra = it['aggregate'], 'committee_bits' in it['aggregate']
    root = merkle([bits(inner['aggregation_bits'], 131072 if is_electra else 2048), root_of_vote(inner['data']), vector(inner['signature'])] + ([vector(inner['committee_bits'])] if is_electra else []))
    return merkle([number(it['aggregator_index']), root, vector(it['selection_proof'])])

def root_of_registration(it):
    return merkle([vector(it['fee_recipient']), number(it['gas_limit']), number(it['timestamp']), vector(it['pubkey'])])

def epoch_of_aggregate(it):
    return int(it['aggregate']['data']['slot']) // 32

# Of each type: its domain, the object's root, and its epoch.
OBJECTS = {
    'BLOCK_V2': (0, lambda body: root_of_header(body['beacon_block']['block_header']), lambda body: int(body['beacon_block']['block_header']['slot']) // 32),
    'ATTESTATION': (1, lambda body: root_of_vote(body['attestation']), lambda body: int(body['attestation']['target']['epoch'])),
    'RANDAO_REVEAL': (2, lambda body: number(body['randao_reveal']['epoch']), lambda body: int(body['randao_reveal']['epoch'])),
    'VOLUNTARY_EXIT': (4, lambda body: merkle([number(body['voluntary_exit'][name]) for name in ('epoch', 'validator_index')]), lambda body: int(body['voluntary_exit']['epoch'])),
    'AGGREGATION_SLOT': (5, lambda body: number(body['aggregation_slot']['slot']), lambda body: int(body['aggregation_slot']['slot']) // 32),
    'SYNC_COMMITTEE_MESSAGE': (7, lambda body: octets(body['sync_committee_message']['beacon_block_root']), lambda body: int(body['sync_committee_message']['slot']) // 32),
    'SYNC_COMMITTEE_SELECTION_PROOF': (8, lambda body: merkle([number(body['sync_aggregator_selection_data'][name]) for name in ('slot', 'subcommittee_index')]),
                                       lambda body: int(body['sync_aggregator_selection_data']['slot']) // 32),
    'SYNC_COMMITTEE_CONTRIBUTION_AND_PROOF': (9, lambda body: root_of_contribution(body['contribution_and_proof']), lambda body: int(body['contribution_and_proof']['contribution']['slot']) // 32),
    'AGGREGATE_AND_PROOF': (6, lambda body: root_of_aggregate(body['aggregate_and_proof']), lambda body: epoch_of_aggregate(body['aggregate_and_proof'])),
    'AGGREGATE_AND_PROOF_V2': (6, lambda body: root_of_aggregate(body['aggregate_and_proof']['data']), lambda body: epoch_of_aggregate(body['aggregate_and_proof']['data'])),
    'VALIDATOR_REGISTRATION': (1 << 24, lambda body: root_of_registration(body['validator_registration']), lambda body: 0),
}

def version_in_fork(body):
    """The version of the epoch of a request's object in the request's fork."""
    fork = body['fork_info']['fork']
    return fork['previous_version' if OBJECTS[body['type']][2](body) < int(fork['epoch']) else 'current_version']

def chain_of(body):
    """The version and the genesis root that a request's object is signed under on mainnet: of a registration that at genesis and zeros, of an exit Capella's from Deneb's fork on."""
    if body['type'] == 'VALIDATOR_REGISTRATION':
        return '0x00000000', ZERO
    genesis = body['fork_info']['genesis_validators_root']
    keeps_capella = body['type'] == 'VOLUNTARY_EXIT' and genesis == GENESIS and int(body['fork_info']['fork']['epoch']) >= DENEB_EPOCH
    return CAPELLA if keeps_capella else version_in_fork(body), genesis

def signing_root(body, version=None):
    """What is signed for a request: the object's root under the domain of its type and of its chain, or of this version."""
    kind, root, _ = OBJECTS[body['type']]
    own, genesis = chain_of(body)
    data = sha(octets(version or own).ljust(32, b'\0') + octets(genesis))
    return '0x' + sha(root(body) + kind.to_bytes(4, 'little') + data[:28]).hex()

# ---- requests

def fork_info(fork=FORK, genesis=GENESIS):
    return {'fork': fork, 'genesis_validators_root': genesis}

def vote_body(source, target, variant=0):
    return {'type': 'ATTESTATION', 'fork_info': fork_info(), 'attestation': {
        'slot': str(target * 32), 'index': '0', 'beacon_block_root': '0x%064x' % (variant + 1), 'source': {'epoch': str(source), 'root': ZERO}, 'target': {'epoch': str(target), 'root': ZERO}}}

def block_body(slot, variant=0):
    return {'type': 'BLOCK_V2', 'fork_info': fork_info(), 'beacon_block': {'version': 'DENEB', 'block_header': {
        'slot': str(slot), 'proposer_index': '7', 'parent_root': ZERO, 'state_root': '0x%064x' % (variant + 1), 'body_root': ZERO}}}

def bit_list(count):
    """So many bits as the JSON of a list has them, of which every third is on, and the last."""
    on = sum(1 << at for at in {*range(0, count, 3), count - 1}) if count else 0
    return '0x' + (on | 1 << count).to_bytes(count // 8 + 1, 'little').hex()

def aggregate(slot, count, is_electra):
    data = {'slot': str(slot), 'index': '0' if is_electra else '3', 'beacon_block_root': '0x' + '22' * 32, 'source': {'epoch': str(slot // 32 - 1), 'root': ZERO}, 'target': {'epoch': str(slot // 32), 'root': '0x' + '44' * 32}}
    inner = {'aggregation_bits': bit_list(count), 'data': data, 'signature': '0x' + 'ab' * 96, **({'committee_bits': '0x0300000000000080'} if is_electra else {})}
    return {'aggregator_index': '7', 'aggregate': inner, 'selection_proof': '0x' + 'cd' * 96}

def aggregate_body(slot, version=None, count=130):
    """An aggregate, with the name of its fork or without it."""
    given = aggregate(slot, count, version in ('ELECTRA', 'FULU'))
    kind, given = ('AGGREGATE_AND_PROOF_V2', {'version': version, 'data': given}) if version else ('AGGREGATE_AND_PROOF', given)
    return {'type': kind, 'fork_info': fork_info(), 'aggregate_and_proof': given}

def registration_body(timestamp, **more):
    return {'type': 'VALIDATOR_REGISTRATION', **more, 'validator_registration': {'fee_recipient': '0x' + 'fe' * 20, 'gas_limit': '36000000', 'timestamp': str(timestamp), 'pubkey': key(0)}}

def exit_body(epoch, fork, genesis=GENESIS):
    return {'type': 'VOLUNTARY_EXIT', 'fork_info': fork_info(fork, genesis), 'voluntary_exit': {'epoch': str(epoch), 'validator_index': '7'}}

def request(method, target, body=None, more=''):
    text = b'' if body is None else body if isinstance(body, bytes) else json.dumps(body).encode()
    length = '' if body is None else 'Content-Type: application/json\r\nContent-Length: %d\r\n' % len(text)
    return ('%s %s HTTP/1.1\r\nHost: 127.0.0.1\r\nAccept: application/json\r\n%s%s\r\n' % (method, target, length, more)).encode() + text

def sign_request(number_of_key, body):
    return request('POST', SIGN + key(number_of_key), body)

# ---- clients

def connected(port, seconds=60):
    link = socket.socket()
    link.settimeout(seconds)
    try:
        link.connect(('127.0.0.1', port))
    except OSError:
        link.close()
        raise
    return link

def reply_in(held):
    """The status, the head and the body of a reply that is there whole, by its length; None before that. Responses of status 100 are passed over."""
    head, found, body = held.partition(b'\r\n\r\n')
    if found and head.startswith(b'HTTP/1.1 100'):
        return reply_in(body)
    length = re.search(rb'(?i)\r\ncontent-length: *(\d+)', head)
    if not found or not length or len(body) < int(length[1]):
        return None
    return int(head[9:12]), head, body

def read_reply(link):
    held = b''
    while (reply := reply_in(held)) is None:
        piece = link.recv(65536)
        if not piece:
            return None
        held += piece
    return reply

def exchange(port, asked, seconds=60):
    """Sends a request over a connection of its own: the status of the reply and its body, or None where no whole one came."""
    try:
        with connected(port, seconds) as link:
            link.sendall(asked)
            reply = read_reply(link)
    except OSError:
        return None
    return reply and (reply[0], reply[2])

def vote_for(port, keys, first, seconds, barrier, pipe):
    """A client that asks for votes of these keys, one after another, with rising epochs: how long each took, and the first that was not signed."""
    times, failed = [], None
    heads = [b'POST %s%s HTTP/1.1\r\nHost: 127.0.0.1:%d\r\nAccept: application/json\r\nContent-Type: application/json\r\nContent-Length: ' % (SIGN.encode(), key(n).encode(), port) for n in keys]
    before, at_source, after = (part.encode() for part in re.split(r'"(?:1234567|7654321)"', json.dumps(vote_body(1234567, 7654321))))
    barrier.wait()
    end = time.perf_counter() + seconds
    for turn in itertools.count():
        epoch = first + turn // len(keys)
        body = before + b'"%d"' % epoch + at_source + b'"%d"' % (epoch + 1) + after
        asked = heads[turn % len(keys)] + b'%d\r\n\r\n' % len(body) + body
        begun = time.perf_counter()
        if begun >= end:
            break
        reply = exchange(port, asked)
        times.append(time.perf_counter() - begun)
        if failed is None and (reply is None or reply[0] != 200):
            failed = reply or 'no reply'
    pipe.send((times, failed))

def votes_over(port, keys, connections, first, seconds):
    """So many clients at once, each with keys of its own: signatures a second, the times in order, and the first that was not signed."""
    barrier, pipes = forked.Barrier(connections + 1), []
    for number_of_client in range(connections):
        mine, other = forked.Pipe(False)
        forked.Process(target=vote_for, args=(port, keys[number_of_client::connections], first, seconds, barrier, other), daemon=True).start()
        pipes.append(mine)
    barrier.wait()
    begun = time.perf_counter()
    said = [pipe.recv() for pipe in pipes]
    taken = time.perf_counter() - begun
    times = sorted(itertools.chain.from_iterable(times for times, _ in said))
    return len(times) / taken, times, next((failed for _, failed in said if failed), None)

class Ask:
    """A request that is sent over a connection of its own next to others."""

    def __init__(self, port, text):
        self.text, self.held, self.reply, self.fault, self.begun = text, b'', None, 'no reply in time', time.perf_counter()
        self.link = socket.socket()
        self.link.setblocking(False)
        self.link.connect_ex(('127.0.0.1', port))

    def go_on(self, events):
        """Whether it has come to its end."""
        try:
            if self.text:
                self.text = self.text[self.link.send(self.text):]
                return False
            piece = self.link.recv(65536)
        except BlockingIOError:
            return False
        except OSError as error:
            piece, self.fault = b'', error.strerror
        else:
            self.fault = 'no whole reply'
        self.held += piece
        self.reply = reply_in(self.held)
        self.taken = time.perf_counter() - self.begun
        return not piece or self.reply is not None

    def word(self):
        return '%d' % self.reply[0] if self.reply else self.fault

def at_once(port, texts, seconds=60):
    """Sends all these requests at once, a connection each: the times of those that were signed, in order, and how often what came of the others."""
    poll, asks, times, others, end = select.epoll(), {}, [], collections.Counter(), time.perf_counter() + seconds
    for text in texts:
        ask = Ask(port, text)
        asks[ask.link.fileno()] = ask
        poll.register(ask.link, select.EPOLLOUT)
    while asks and time.perf_counter() < end:
        for at, events in poll.poll(1):
            ask = asks[at]
            if ask.go_on(events):
                poll.unregister(at)
                asks.pop(at).link.close()
                if ask.word() == '200':
                    times.append(ask.taken)
                else:
                    others[ask.word()] += 1
            elif not ask.text:
                poll.modify(at, select.EPOLLIN)
    for ask in asks.values():
        others[ask.word()] += 1
        ask.link.close()
    return sorted(times), others

# ---- the signing service: it holds every key

class Peer:
    """A connection to the service: what came in, and what the reply is."""

    def __init__(self, link):
        self.link, self.held = link, b''

    def asked(self):
        """The target and the body of the request, once it is there."""
        head, found, body = self.held.partition(b'\r\n\r\n')
        length = re.search(rb'(?i)\r\ncontent-length: *(\d+)', head)
        if not found or len(body) < (int(length[1]) if length else 0):
            return None
        method, target, _ = head.split(b'\r\n', 1)[0].decode().split(' ')
        return method, target, body

    def reply(self, text):
        try:
            self.link.send(b'HTTP/1.1 200 OK\r\nContent-Type: application/json\r\nContent-Length: %d\r\nConnection: close\r\n\r\n' % len(text) + text)
        except OSError:
            pass
        self.link.close()

class Service:
    """Signs what it is asked after a delay, in a process of its own. It hands out what it was asked to sign, where that is to be noted, and how often. Every
    so many requests it may break off after it has noted the request, as if it had signed."""

    def __init__(self):
        self.listening = socket.create_server(('127.0.0.1', 0), backlog=1024)
        self.listening.setblocking(False)
        self.port = self.listening.getsockname()[1]
        self.pipe, self.other = forked.Pipe()
        self.state, self.noted, self.count, self.due, self.peers = {'delay': 0, 'notes': False, 'breaks': 0}, [], 0, [], {}
        forked.Process(target=self.answer_all, daemon=True).start()
        self.listening.close()

    def set(self, **said):
        self.pipe.send(said)
        self.pipe.recv()

    def take(self):
        """What it was asked to sign since the last time: targets and bodies, and how many."""
        self.pipe.send(None)
        return self.pipe.recv()

    def control(self):
        said = self.other.recv()
        if said is None:
            self.other.send((self.noted, self.count))
            self.noted, self.count = [], 0
        else:
            self.other.send(self.state.update(said))

    def answer_all(self):
        self.poll = select.epoll()
        self.poll.register(self.listening, select.EPOLLIN)
        self.poll.register(self.other, select.EPOLLIN)
        while True:
            wait = max(0, self.due[0][0] - time.perf_counter()) if self.due else -1
            for at, _ in self.poll.poll(wait):
                if at == self.listening.fileno():
                    self.accept()
                elif at == self.other.fileno():
                    self.control()
                else:
                    self.hear(self.peers[at])
            while self.due and self.due[0][0] <= time.perf_counter():
                _, _, peer, text = heapq.heappop(self.due)
                peer.reply(text)

    def accept(self):
        while True:
            try:
                link, _ = self.listening.accept()
            except BlockingIOError:
                return
            link.setblocking(False)
            peer = self.peers[link.fileno()] = Peer(link)
            self.poll.register(link, select.EPOLLIN)
            self.hear(peer)

    def hear(self, peer):
        try:
            piece = peer.link.recv(1 << 20)
        except BlockingIOError:
            return
        except OSError:
            piece = b''
        peer.held += piece
        asked = peer.asked() if piece else None
        if piece and asked is None:
            return
        self.poll.unregister(peer.link)
        del self.peers[peer.link.fileno()]
        if asked is None:
            peer.link.close()
        else:
            self.answer(peer, *asked)

    def answer(self, peer, method, target, body):
        if target == KEYSTORES:
            asked = json.loads(body)
            status = 'imported' if method == 'POST' else 'deleted'
            rows = [{'status': status, 'message': ''} for _ in asked.get('keystores') or asked.get('pubkeys')]
            return peer.reply(json.dumps({'data': rows, 'slashing_protection': ''}).encode())
        self.count += 1
        if self.state['notes']:
            self.noted.append((target, body))
        if self.state['breaks'] and self.count % self.state['breaks'] == 0:
            return peer.link.close()
        named = re.search(rb'"signingRoot": ?"(0x[0-9a-f]{64})"', body)
        root = named[1].decode() if named else '0x' + hashlib.sha256(body).hexdigest()
        text = json.dumps({'signature': signature_of(target[len(SIGN):], root)}).encode()
        if self.state['delay']:
            heapq.heappush(self.due, (time.perf_counter() + self.state['delay'], self.count, peer, text))
        else:
            peer.reply(text)

# ---- a storm

def drawn(draw, epoch, keys):
    """A request near this epoch: a vote whose source and target are some epochs about, at times in the wrong order, or a block some slots about."""
    if draw.random() < 0.7:
        source, target = epoch - 1 - draw.choice((0, 0, 0, 1, 2, 3)), epoch + draw.choice((0, 0, 0, 1, 2))
        return ('vote', draw.randrange(keys), *((target, source) if draw.random() < 0.02 else (source, target)), draw.randrange(3))
    return 'block', draw.randrange(keys), epoch * 8 + draw.randrange(-2, 3), draw.randrange(3)

def body_of(asked):
    kind, _, *rest = asked
    return vote_body(*rest) if kind == 'vote' else block_body(*rest)

def leave_early(port, text):
    """Sends a request and does not wait for the reply."""
    try:
        with connected(port) as link:
            link.sendall(text)
    except OSError:
        pass

def storm_client(seed, port, keys, begun, seconds, rate, path):
    """Asks for what is slashable at times, as epochs go by at this rate, and keeps what was asked with each reply; None where no whole one came."""
    draw, rows = random.Random(seed), []
    while (now := time.time()) < begun + seconds:
        if rows and draw.random() < 0.05:
            asked = draw.choice(rows[-50:])[0]
        else:
            asked = drawn(draw, 100 + int((now - begun) * rate), keys)
        text = sign_request(asked[1], body_of(asked))
        if draw.random() < 0.02:
            leave_early(port, text)
            rows.append((asked, None))
            continue
        reply = exchange(port, text)
        rows.append((asked, reply))
        if reply is None:
            time.sleep(0.02)
    with open(path, 'wb') as file:
        pickle.dump(rows, file)

def message_of(pubkey, body, root):
    """What counts of something that was signed: the key, and a vote's epochs or a block's slot, and the root."""
    if body['type'] == 'ATTESTATION':
        return pubkey, 'vote', int(body['attestation']['source']['epoch']), int(body['attestation']['target']['epoch']), root
    return pubkey, 'block', int(body['beacon_block']['block_header']['slot']), root

def couples(counts):
    return sum(n * (n - 1) // 2 for n in counts.values())

def surrounding(votes):
    """How many pairs of these votes, each a source and a target, surround one another: the lesser source with the greater target."""
    pairs, targets = 0, []
    for _, group in itertools.groupby(sorted(votes), key=lambda vote: vote[0]):
        group = [target for _, target in group]
        pairs += sum(len(targets) - bisect.bisect_right(targets, target) for target in group)
        for target in group:
            bisect.insort(targets, target)
    return pairs

def slashable_pairs(messages):
    """How many pairs of these messages are slashable: two blocks of one key and slot, two votes of one key and target, or a vote that surrounds another."""
    votes, blocks = collections.defaultdict(list), collections.Counter()
    for pubkey, kind, *rest in set(messages):
        if kind == 'vote':
            votes[pubkey].append(tuple(rest[:2]))
        else:
            blocks[pubkey, rest[0]] += 1
    return couples(blocks) + sum(couples(collections.Counter(target for _, target in of_key)) + surrounding(of_key) for of_key in votes.values())

def try_the_check():
    """Whether what finds slashable pairs finds those that there are."""
    vote = lambda source, target, root='r': ('k', 'vote', source, target, root)
    cases = [([vote(1, 2), vote(1, 2)], 0), ([vote(1, 2), vote(1, 2, 'x')], 1), ([vote(1, 2), vote(0, 2)], 1), ([vote(1, 4), vote(2, 3)], 1), ([vote(1, 4), vote(1, 3)], 0),
             ([vote(1, 9), vote(2, 3), vote(3, 4), vote(9, 10)], 2), ([('k', 'block', 5, 'r'), ('k', 'block', 5, 'x'), ('k', 'block', 5, 'y'), ('l', 'block', 5, 'z')], 3)]
    return all(slashable_pairs(messages) == pairs for messages, pairs in cases)
