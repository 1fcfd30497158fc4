"""The scenes of `trouble.sh`: what a peer, an output, a disk or a clock that misbehaves costs. Each looks at the status, each line of both outputs, what the
signing service signed, and what was posted when."""
from trouble_runs import *
import trouble_aggregates

# ---- beacon nodes

TIMED_OUT = lambda at: [(at + CALL + 'timed out', 2, None), (at + 'set aside for 1000 ms', 1, 1), (at + r'set aside for (?:2000|4000|8000|16000|32000|60000) ms', 0, None)]
UNREADABLE = lambda at: [(at + CALL + 'unreadable: ', 2, None)]
NO_JSON = lambda at: [(at + CALL + r'unreadable: \{"data', 2, None), (at + r'POST (?:%s|%s): 503 \{"data' % (VOTES, BLOCKS), 1, None)]

def hangs_cost(seen):
    """What is wrong with what nodes were asked which never answer: once for their version and once more until each is found out, which costs its limit of 2
    seconds, and then at a slot's start, where all of them together cost no more."""
    syncing = [ended - begun for begun, ended, call in seen if 'syncing' in call]
    others = [ended - begun for begun, ended, call in seen if 'syncing' not in call]
    wrong = ['%s took %.1f s' % (call, ended - begun) for begun, ended, call in seen if ended - begun > 2.6]
    wrong += ['the questions whether it is syncing took %.1f s' % sum(syncing)] if sum(syncing) > 2 * (slots + 1) + 0.6 else []
    return wrong, others

def first_node(name, treat, told, says='does not answer', count=1):
    """Nodes that misbehave stand before a healthy one: each duty is done in its time."""
    peers = [Peer(treat) for _ in range(count)]
    run = begin(name, first=peers, says=says)
    wrong = run.amiss([line for peer in peers for line in told(place_of(peer))])
    for peer in peers:
        wrong += [] if peer.seen else ['%s was not asked' % peer.at]
        if told is TIMED_OUT:
            took, others = hangs_cost(peer.seen)
            wrong += took + ([] if len(others) == 2 else ['%d questions beside those whether it is syncing' % len(others)])
    return wrong

# ---- beacon nodes by their names

MANY = 'node-of-many-addresses.test'

def with_hosts(name, addresses):
    """The words that start a program for which this name alone has these addresses, and no other name server is asked."""
    hosts, order = os.path.join(folder, name + '.hosts'), os.path.join(folder, name + '.order')
    with open(hosts, 'w') as file:
        file.write('127.0.0.1 localhost\n' + ''.join('%s %s\n' % (address, MANY) for address in addresses))
    with open(order, 'w') as file:
        file.write('hosts: files\n')
    return ['unshare', '-m', 'bash', '-c', 'mount --bind "$0" /etc/hosts && mount --bind "$1" /etc/nsswitch.conf && exec "${@:2}"', hosts, order]

class Full:
    """A port at which connections are neither taken nor refused: no room is left for one more."""

    def __init__(self, host, at=0):
        self.listening = socket.socket()
        self.listening.bind((host, at))
        self.listening.listen(0)
        self.at, self.seen, self.waiting = '%s:%d' % self.listening.getsockname(), [], []
        for _ in range(4):
            link = socket.socket()
            link.setblocking(False)
            link.connect_ex(self.listening.getsockname())
            self.waiting.append(link)

def named_node(name, make, count, told, longest):
    """The first node is named, and each of its addresses misbehaves: that costs its limit once, and not once an address."""
    peers, run, hosts = [], None, ['127.0.0.%d' % (n + 2) for n in range(count)]
    for host in hosts:
        peers.append(make(host, int(peers[0].at.split(':')[1]) if peers else 0))
    first = collections.namedtuple('Named', 'url')('http://%s:%d' % (MANY, int(peers[0].at.split(':')[1]) if peers else 5052))
    run = begin(name, first=[first], before=with_hosts(name, hosts))
    wrong = run.amiss(told(re.escape(first.url[7:]) + ': '))
    seen = [of for peer in peers for of in peer.seen]
    began, asked = ([moment for moment, line in run.told if line.startswith(front)] for front in ('validator: signing service', 'validator: beacon node http://' + MANY))
    if began and asked and asked[0] - began[0] > longest:
        wrong.append('the question for its version took %.1f s' % (asked[0] - began[0]))
    took, others = hangs_cost(seen)
    timed_out = sum('timed out' in line for line in run.lines())
    if seen and (len(seen), len(others)) != (timed_out, 2):
        wrong.append('%d connections, %d of them not for syncing, and %d lines of calls that timed out' % (len(seen), len(others), timed_out))
    return wrong + took

def timed_out_unconnected(at):
    return [(at + '(?:connection )?timed out', 2, None), (at + 'set aside for 1000 ms', 1, 1), (at + r'set aside for (?:2000|4000|8000|16000|32000|60000) ms', 0, None)]

def has_no_address(at):
    return [(at + 'failed to lookup address information: Name or service not known', 2, None)]

# ---- signing services

LONG = bytes(range(256)) + b'z' * 300
NO_SIGNATURE = json.dumps({'data': 'x' * 150, 'signature': '0x' + 'ab' * 95}).encode()
AWAY_503 = b'{"message":"' + b'not now, ' * 40 + b'"}'

def shown(body):
    """The first 200 bytes of a body, as a report has them."""
    return re.escape(''.join(chr(byte) if 32 <= byte < 127 else '.' for byte in body[:200]))

def one_key(name, treat, cause, line, tries=2, seconds=(0, 1)):
    """A signing service misbehaves for one key: its duties alone are lost, each after that many requests, with a line for each, and each of them took from so
    many seconds to so many."""
    front = Front(treat, key(1))
    run = begin(name, signing=front.url)
    lost = {duty: 'unsigned ' + cause for duty in run.due if duty[2] == key(1)}
    count = tries * len(lost)
    wrong = run.amiss([(place_of(front) + 'POST ' + SIGN + key(1) + ': ' + line, count, count)], other=lost)
    wrong += [] if len(front.of_key) == count else ['%d requests for the key in place of %d' % (len(front.of_key), count)]
    return wrong + ['a request took %.1f s' % (ended - begun) for begun, ended in front.of_key if not seconds[0] <= ended - begun <= seconds[1]]

# ---- what is away, and comes back within the slot

AWAY = 5.5  # seconds from a slot's start: after the votes, and before what was granted and not sent is tried once more
AGAIN_AT = 7

def each_slot(genesis, go, come):
    """Calls `go` a second before each slot with duties, and `come` when that is over."""
    for slot in range(1, slots + 1):
        for moment, act in ((genesis + slot * SLOT - 1, go), (genesis + slot * SLOT + AWAY, come)):
            wait_until(moment)
            act()

def too_early(run):
    """The posts that were taken before what was granted is tried once more."""
    came = [(request, int(body['data']['slot'] if request.target == VOTES else body['message']['slot'])) for request, body in posted(run.handed)]
    return ['taken %.1f s into slot %d' % (request.ended - run.genesis - slot * SLOT, slot) for request, slot in came if AWAY < request.begun - run.genesis - slot * SLOT < AGAIN_AT]

def signer_comes_back(name):
    """The signing service is away when blocks and votes are due, and back within the slot: what is left is signed and posted in the same slot."""
    gate = Gate(signer)
    gate.open()
    run = begin(name, signing=gate.url)
    threading.Thread(target=each_slot, args=(run.genesis, gate.shut, gate.open), daemon=True).start()
    wrong = run.amiss([(at(gate) + REFUSES, len(run.due), len(run.due))])
    return wrong + too_early(run)

def posts_are_taken_late(name):
    """The node takes no post when blocks and votes are due, and then does within the slot: what is left is posted in the same slot."""
    run = begin(name)
    threading.Thread(target=each_slot, args=(run.genesis, lambda: node.set(takes_none=True), lambda: node.set(takes_none=False)), daemon=True).start()
    wrong = run.amiss([(at(node) + 'POST (?:%s|%s): 503 ' % (VOTES, BLOCKS) + re.escape(TAKES_NONE), len(run.due), len(run.due))], posts={duty: 2 for duty in run.due})
    return wrong + too_early(run)

TAKES_NONE = '{"code": 503, "message": "takes none"}'

# ---- the Keymanager API

API = 'Keymanager API: '
BEARING = b'/eth/v1/keystores HTTP/1.1\r\nHost: a\r\nAuthorization: Bearer %s\r\n' % TOKEN.encode()
NO_KEYS = b'{"pubkeys":[]}'
DELETES_NONE = b'DELETE ' + BEARING + b'Content-Length: 14\r\n\r\n' + NO_KEYS
LISTS = b'GET ' + BEARING + b'\r\n'
CHUNKED = b'DELETE ' + BEARING + b'Transfer-Encoding: chunked\r\n\r\n'
PHRASES = {200: 'OK', 400: 'Bad Request', 401: 'Unauthorized', 403: 'Forbidden', 404: 'Not Found', 405: 'Method Not Allowed'}

def compact(value):
    return json.dumps(value, separators=(',', ':'))

def reply(status, body):
    """A reply of the API, byte by byte."""
    return ('HTTP/1.1 %d %s\r\nContent-Type: application/json\r\nContent-Length: %d\r\nConnection: close\r\n\r\n%s' % (status, PHRASES[status], len(body), body)).encode()

def refusal(status, text):
    return reply(status, compact({'message': text}))

DELETED_NONE = compact({'data': [], 'slashing_protection': compact({'data': [], 'metadata': METADATA})})
LISTED = compact({'data': [{'derivation_path': '', 'readonly': False, 'validating_pubkey': key(n)} for n in range(KEYS)]})

def told_of(call, status, body=''):
    """The line of a request that was replied to so."""
    return API + re.escape('%s: %d' % (call, status) + (' ' + body[:200] if body else ''))

DELETED_LINE = told_of('DELETE /eth/v1/keystores', 200, DELETED_NONE)

def answered(request, wait=0, ends=False):
    """Sends the pieces of a request, and the end where that is said, and gives what comes back up to the end, and for how long it took."""
    begun = time.time()
    with socket.create_connection(('127.0.0.1', port), timeout=60) as link:
        for piece in request:
            link.sendall(piece)
            time.sleep(wait)
        if ends:
            link.shutdown(socket.SHUT_WR)
        came = b''
        while piece := link.recv(65536):
            came += piece
    return came, time.time() - begun

def not_so(what, request, wanted, within=2, ends=False):
    """What is wrong where this is not the reply to a request, or comes later than within that many seconds."""
    came, took = answered([request], ends=ends)
    return ['%s: %r in place of %r' % (what, came[:200], wanted[:200])] * (came != wanted) + ['%s: after %.1f s' % (what, took)] * (took >= within)

def dripping(name):
    """Peers that send a request byte by byte, of which one has the token and drips its body, bar no other."""
    run = begin(name, connections=3)
    once_listening(run)
    heads = [b'GET /eth/v1/keystores HTTP/1.1\r\nX-Drip: ', b'POST ' + BEARING + b'Content-Length: 1000\r\n\r\n']
    def drips(link, head):
        try:
            link.sendall(head)
            for _ in range(1000):
                link.sendall(b'a')
                time.sleep(0.5)
        except OSError:
            pass
    for head in heads:
        threading.Thread(target=drips, args=(socket.create_connection(('127.0.0.1', port)), head), daemon=True).start()
    time.sleep(1)
    wrong = not_so('a listing', LISTS, reply(200, LISTED))
    return wrong + run.amiss([(API + 'POST /eth/v1/keystores: no reply', 1, 1)])

def drips_next_to_a_caller(name):
    """A peer that sends a byte a second is given up in its 30 seconds, though others are served meanwhile. It is one of the nine connections."""
    run = begin(name, connections=9)
    once_listening(run)
    begun, gone = time.time(), []
    def drips(link):
        try:
            link.sendall(b'GET /eth/v1/keystores HTTP/1.1\r\nX-Drip: ')
            for _ in range(60):
                link.sendall(b'a')
                time.sleep(1)
        except OSError:
            gone.append(time.time() - begun)
    threading.Thread(target=drips, args=(socket.create_connection(('127.0.0.1', port)),), daemon=True).start()
    wrong = []
    for _ in range(8):
        wrong += not_so('a listing', LISTS, reply(200, LISTED))
        time.sleep(5)
    return wrong + ([] if gone and 28 < gone[0] < 34 else ['given up after: %s' % gone]) + run.amiss([(API + 'GET /eth/v1/keystores: no reply', 0, 1)])

def few_files(name):
    """The process may open one file more than it has open. While the first node swallows a question none is left: a connection of the API cannot be accepted
    then, which is reported, and it is answered once one is free. A call that lacks one is reported, and costs its duty at most."""
    found, run = [], None
    def hang(link, request):
        if b'/node/syncing' in request and run and time.time() > run.genesis + SLOT - 1 and not found:
            found.append(len(os.listdir('/proc/%d/fd' % run.child.pid)))
            threading.Thread(target=lambda: found.extend(not_so('a listing', LISTS, reply(200, LISTED), 10)), daemon=True).start()
        swallow(link, request)
    peer = Peer(hang)
    run = begin(name, connections=1, first=[peer], before=['bash', '-c', 'ulimit -n %d; exec "$@"' % FILES, 'bash'], lanes=1)
    run.end(run.genesis + (slots + 2) * SLOT + 60)
    output, lacks = [line for _, line in run.out], r'Too many open files \(os error 24\)'
    lost = {duty: told for duty in run.due for told in ('unsigned fault', 'nodata none', 'unposted') if '%d %s %s %s' % (*duty, told) in output}
    wrong = run.amiss(TIMED_OUT(place_of(peer)) + [(r'127\.0\.0\.1:%d: ' % port + lacks, 1, None)] + [(of + lacks, 0, None) for of in (at(node), at(signer), place_of(peer))],
                      other=lost, nobody=[line for line in output if line.endswith(' nodes none')])
    wrong += ['lost without a cause: %s' % lost] if lost and not any(re.fullmatch((at(node) if told != 'unsigned fault' else at(signer)) + lacks, line) for line in run.lines() for told in lost.values()) else []
    return wrong + (found[1:] if found[:1] == [FILES] else ['files that were open: %s' % found])

FILES = 8

def refused_early(name):
    """A request without the token and with a body of 16 MB is refused before its body is sent, and the refusal is not lost."""
    run = begin(name, connections=2)
    once_begun(run)
    head = b'POST /eth/v1/keystores HTTP/1.1\r\nHost: a\r\nContent-Length: 16000000\r\n\r\n'
    wrong = not_so('its head', head, refusal(401, 'no token')) + not_so('a part of its body', head + b' ' * 65536 * 40, refusal(401, 'no token'), 10)
    return wrong + run.amiss([(told_of('POST /eth/v1/keystores', 401), 2, 2)])

GOES_ON = b'HTTP/1.1 100 Continue\r\n\r\n'

def asks_before_its_body(name):
    """A request with `Expect: 100-continue` is told to go on, and then answered."""
    run = begin(name, connections=1)
    once_begun(run)
    came, _ = answered([b'DELETE ' + BEARING + b'Expect: 100-continue\r\nContent-Length: 14\r\n\r\n', NO_KEYS], wait=1)
    return run.amiss([(DELETED_LINE, 1, 1)]) + ([] if came == GOES_ON + reply(200, DELETED_NONE) else [repr(came[:200])])

def asked_and_slow(name):
    """A peer that is asked for its body and sends it slowly bars no other, and is answered once all of it is there."""
    run = begin(name, connections=3)
    once_begun(run)
    def sends(link):
        try:
            for byte in NO_KEYS[:4]:
                link.sendall(bytes([byte]))
                time.sleep(2)
            link.sendall(NO_KEYS[4:])
        except OSError:
            pass
    with socket.create_connection(('127.0.0.1', port), timeout=60) as slow:
        slow.sendall(b'DELETE ' + BEARING + b'Expect: 100-Continue\r\nContent-Length: 14\r\n\r\n')
        came = slow.recv(len(GOES_ON))
        threading.Thread(target=sends, args=(slow,), daemon=True).start()
        time.sleep(1)
        wrong = not_so('a listing', LISTS, reply(200, LISTED)) + not_so('a deletion', DELETES_NONE, reply(200, DELETED_NONE))
        while piece := slow.recv(65536):
            came += piece
    return wrong + run.amiss([(DELETED_LINE, 2, 2)]) + ([] if came == GOES_ON + reply(200, DELETED_NONE) else [repr(came[:200])])

def ends_at_once(name):
    """Each request is answered as soon as its end is there, or what it is no request by: none waits for more of it."""
    asked = {
        'trailers': (CHUNKED + b'e\r\n' + NO_KEYS + b'\r\n0\r\nX-After: a\r\nX-Last: b\r\n\r\n', 200, ''),
        'bytes after the end': (CHUNKED + b'e\r\n' + NO_KEYS + b'\r\n0\r\n\r\nGET / HTTP/1.1\r\n', 200, ''),
        'many chunks': (CHUNKED + b''.join(b'1;x=y\r\n%c\r\n' % byte for byte in NO_KEYS) + b'00\r\n\r\n', 200, ''),
        'a size that is none': (CHUNKED + b'e\r\n' + NO_KEYS + b'\r\nz\r\n', 400, 'bad body'),
        'a chunk without its end': (CHUNKED + b'1\r\n{}}', 400, 'bad body'),
        'a length that is none': (b'DELETE ' + BEARING + b'Content-Length: ten\r\n\r\n', 400, 'bad body'),
        'two lengths': (b'DELETE ' + BEARING + b'Content-Length: 1\r\nContent-Length: 2\r\n\r\n', 400, 'bad body'),
        'a coding': (b'DELETE ' + BEARING + b'Content-Encoding: gzip\r\nContent-Length: 10\r\n\r\n', 400, 'encoded body: gzip'),
        'a method that is none': (b'PATCH ' + BEARING + b'Content-Length: 10\r\n\r\n', 405, 'no method'),
        'a target that is none': (b'DELETE ' + BEARING.replace(b'keystores', b'keystores/a') + b'Content-Length: 10\r\n\r\n', 404, 'no route'),
        'no head': (b'DELETE ' + BEARING + b'a field\r\n', 400, 'bad head'),
    }
    run = begin(name, connections=len(asked))
    once_begun(run)
    wrong, lines = [], []
    for what, (request, status, text) in asked.items():
        wrong += not_so(what, request, refusal(status, text) if text else reply(200, DELETED_NONE))
        lines.append(told_of(request.split(b' HTTP/')[0].decode(), status, compact({'message': text}) if text else DELETED_NONE))
    return wrong + run.amiss([(line, count, count) for line, count in collections.Counter(lines).items()])

def no_line_feed(name):
    """Peers that send what is no request, or no chunk, without the end of its line, and hold the connection, bar no other, with the token or without.
    One that ends its side there has its answer."""
    held = [b'\0', b'x(', b'GET /\x7f', CHUNKED + b'z', CHUNKED + b'1\r\n{}', CHUNKED + b'0\r\na b']
    run = begin(name, connections=len(held) + 4)
    once_begun(run)
    links = [socket.create_connection(('127.0.0.1', port)) for _ in held]
    for link, piece in zip(links, held):
        link.sendall(piece)
    time.sleep(1)
    wrong = not_so('a deletion', DELETES_NONE, reply(200, DELETED_NONE)) + not_so('a listing', LISTS, reply(200, LISTED))
    wrong += not_so('no head', b'x(', refusal(400, 'bad head'), ends=True) + not_so('no chunk', CHUNKED + b'z', refusal(400, 'bad body'), ends=True)
    wrong += run.amiss([(DELETED_LINE, 1, 1), (API + 'DELETE /eth/v1/keystores: no reply', 3, 3), (told_of('x(', 400, compact({'message': 'bad head'})), 1, 1),
                        (told_of('DELETE /eth/v1/keystores', 400, compact({'message': 'bad body'})), 1, 1)])
    for link in links:
        link.close()
    return wrong

HISTORY = 100000

def with_long_history(name):
    """Has a key that is not active, whose file takes some megabytes."""
    votes = [{'source_epoch': str(n), 'target_epoch': str(n + 1)} for n in range(HISTORY)]
    file = {'metadata': METADATA, 'data': [{'pubkey': key(KEYS), 'signed_blocks': [], 'signed_attestations': votes}]}
    told = subprocess.run(words(name, 'merge', None), input=json.dumps(file), capture_output=True, text=True, timeout=300)
    wanted('merge: ' + told.stdout + told.stderr, (told.returncode, told.stdout) == (0, 'merged 1\n'))

def asks_for_history():
    """A peer with little room, which has asked for the file of that key, and reads nothing yet."""
    link = socket.socket()
    link.setsockopt(socket.SOL_SOCKET, socket.SO_RCVBUF, 4096)
    link.connect(('127.0.0.1', port))
    body = json.dumps({'pubkeys': [key(KEYS)]}).encode()
    link.sendall(b'DELETE ' + BEARING + b'Content-Length: %d\r\n\r\n' % len(body) + body)
    return link

HISTORY_LINES = [(API + key(KEYS) + ': not_active', 1, 1),
                 (told_of('DELETE /eth/v1/keystores', 200, compact({'data': [{'message': '', 'status': 'not_active'}]})[:-1] + ',"slashing_protection":"{') + r'.{0,200}', 1, 1)]

def read_slowly(link):
    """What is wrong with the reply that this peer reads now."""
    link.settimeout(60)
    came = bytearray()
    with link:
        while piece := link.recv(65536):
            came += piece
    head, _, body = bytes(came).partition(b'\r\n\r\n')
    try:
        told = json.loads(json.loads(body)['slashing_protection'])['data'][0]['signed_attestations']
    except (ValueError, LookupError) as fault:
        return ['%r, %d bytes: %r' % (head[:20], len(came), fault)]
    numbers = [(int(vote['source_epoch']), int(vote['target_epoch'])) for vote in told]
    return [] if numbers == [(n, n + 1) for n in range(HISTORY)] else ['%d votes in the reply' % len(told)]

def slow_reader(name):
    """A peer that does not read a long reply holds up no other's, and then has all of its own."""
    with_long_history(name)
    run = begin(name, connections=2)
    once_begun(run)
    slow = asks_for_history()
    time.sleep(3)
    wrong = not_so('a listing', LISTS, reply(200, LISTED))
    time.sleep(3)
    return wrong + read_slowly(slow) + run.amiss(HISTORY_LINES)

def last_is_slow(name):
    """The last connection that is served is read late, while another waits in vain: its reply is whole all the same, though duties go on."""
    with_long_history(name)
    run = begin(name, connections=1)
    once_begun(run)
    slow = asks_for_history()
    time.sleep(1)
    with socket.create_connection(('127.0.0.1', port)) as other:
        other.sendall(b'GET /eth/v1/keystores HTTP/1.1\r\nHost: a\r\n\r\n')
        time.sleep(5)
        wrong = read_slowly(slow)
        other.settimeout(10)
        try:
            wrong += ['the other was answered'] if other.recv(65536) else []
        except OSError:
            pass
    return wrong + run.amiss(HISTORY_LINES)

# ---- ends: a fault that ends one loop ends the other

def reader_leaves(name):
    """Whoever reads the output leaves: the first line ends the duties, and that ends the Keymanager API."""
    run = begin(name, connections=1000, reads=False)
    run.child.stdout.close()
    run.due = {duty for duty in run.due if duty[0] == 1}
    return run.amiss([(r'output: Broken pipe \(os error 32\)', 1, 1)], lines=[], status=4, by=run.genesis + SLOT + THIRD + 4)

def port_is_taken(name):
    """Another process has the port: the Keymanager API ends at once, and the duties after the slot at hand, or before a node is asked for indices."""
    with socket.create_server(('127.0.0.1', port)):
        run = begin(name, connections=1000)
        run.due, run.keys = {duty for duty in run.due if duty[0] == 1}, 0
        taken = (r'127\.0\.0\.1:%d: Address already in use \(os error 98\)' % port, 1, 1)
        return run.amiss([taken, ('validator: 4 keys', 0, 1), ('epoch 0: .*', 0, 1)], lines=[('1 (?:block|vote) .* sent', 0, None), ('validator: door fault', 1, 1)], status=11, by=run.genesis + 2 * SLOT + THIRD + 2)

def full_disk(name):
    """The disk of the journal is full: the duties end, and that ends the Keymanager API."""
    place = os.path.join(folder, name)
    os.mkdir(place)
    if subprocess.run(['mount', '-t', 'tmpfs', '-o', 'size=8k', 'tmpfs', place], capture_output=True).returncode:
        return ['a small file system cannot be mounted here']
    try:
        count = 0
        while count < KEYS or os.path.getsize(os.path.join(place, 'journal.a')) < 3950:
            sessions(os.path.join(name, 'journal'), [{'op': 'activate', 'pubkey': key(count)}])
            count += 1
        try:
            with open(os.path.join(place, 'rest'), 'wb', buffering=0) as rest:
                while rest.write(bytes(4096)):
                    pass
        except OSError:
            pass
        genesis = int(time.time()) - 2
        node.set(genesis_time=genesis, blocks={1: 0, 2: 1}, votes={n: 1 for n in range(KEYS)})
        node.take(), signer.take()
        run = Run(serve(os.path.join(name, 'journal'), 1000, 1000), {(1, 'block', key(0))} | {(1, 'vote', key(n)) for n in range(KEYS)}, genesis, signer.url, [(node.url, HEALTHY)], count)
        full = (re.escape(os.path.join(place, 'journal.a')) + r': No space left on device \(os error 28\)', 1, 1)
        return run.amiss([full, ('epoch 0: .*', 0, 1)], lines=[('1 (?:block|vote) .* (?:sent|refused disk)', 0, None), ('validator: disk fault', 1, 1)], status=5, by=genesis + 2 * SLOT + THIRD + 4)
    finally:
        subprocess.run(['umount', place], check=True)

# ---- a clock that is set

def stepped():
    """What sets the clock of a program that many seconds ahead, and the words that the program is started by."""
    shim, offset = os.path.join(folder, 'step_clock.so'), os.path.join(folder, 'offset')
    subprocess.run(['gcc', '-shared', '-fPIC', '-O2', '-o', shim, os.path.join(os.path.dirname(os.path.abspath(__file__)), 'step_clock.c')], check=True)
    def step(seconds):
        with open(offset, 'r+b' if os.path.exists(offset) else 'wb') as file:
            file.write((seconds * 10 ** 9).to_bytes(8, sys.byteorder, signed=True))
    step(0)
    return step, ['env', 'LD_PRELOAD=' + shim, 'STEP_CLOCK=' + offset]

def clock_steps(name):
    """The clock jumps a day ahead in a slot, and back three seconds later: that costs the duties of the next slot at most. Those of the slot at hand may be done once more."""
    if slots < 3:
        return ['it shows something of 3 slots and more alone']
    step, before = stepped()
    run = begin(name, connections=1000, before=before, more=6)
    wait_until(run.genesis + SLOT + 7)
    step(86400)
    time.sleep(3)
    step(0)
    wait_until(run.genesis + (slots + 1) * SLOT - 1)
    run.child.terminate()
    run.end(time.time() + 5)
    run.due = {duty for duty in run.due if duty[0] != 2 or '%d %s %s sent' % duty in [line for _, line in run.out]}
    again = {duty: 2 for duty in run.due if duty[0] == 1}
    jumps = [(r'a wait for second \d+ was over at \d+: [ -~]+', 1, None), (r'the clock was set back to \d+ in a wait for second \d+: [ -~]+', 1, None)]
    return run.amiss([*jumps, (r'epoch \d+: .*', 0, None), (r'validator: \d+ keys', 0, None)], lines=[('%d %s %s sent' % duty, 1, again.get(duty, 1)) for duty in run.due], posts=again, status=-15)

def clock_goes_back_in_a_watch(name):
    """The clock of a program that watches keys is set a day back: the run ends by itself, with status 0. Before that each duty is refused."""
    step, before = stepped()
    run = begin(name, connections=1000, before=before, more=1000, options=['--watch'])
    wait_until(run.genesis + SLOT + 7)
    step(-86400)
    run.due = {duty for duty in run.due if duty[0] == 1}
    return run.amiss([(r'the clock was set back to \d+ in a wait for second \d+: [ -~]+', 1, 1)], other={duty: 'refused watching' for duty in run.due}, by=time.time() + SLOT + 4)

# ---- the token

def token_of_a_file(name):
    """The token is read from a file, whose line end is not part of it; a file that others may read is reported, and one that is not there ends the program with
    status 2."""
    path = os.path.join(folder, 'token')
    with open(path, 'w') as file:
        file.write(TOKEN + '\n')
    def runs(path):
        node.set(genesis_time=int(time.time()), blocks={}, votes={})
        node.take(), signer.take()
        return Run(serve(name, 0, 1, token=('--token-file', path)), set(), int(time.time()), signer.url, [(node.url, HEALTHY)], 0)
    wrong = []
    for mode, told in ((0o600, []), (0o644, [(re.escape('validator: %s: others than its owner may read the token in it' % path), 1, 1)])):
        os.chmod(path, mode)
        run = runs(path)
        once_listening(run)
        wrong += not_so('a listing', LISTS, reply(200, compact({'data': []}))) + run.amiss(told)
    run = runs(path + '.none')
    came = run.end(time.time() + 10), [line for _, line in run.out], run.lines()
    return wrong + ([] if came == (2, [], ['validator: %s: No such file or directory (os error 2)' % (path + '.none')]) else [repr(came)])

# ---- standard error

BEGINS = 30  # the slot at hand when the program starts, so that its lines are of two epochs
WRONG_TOKEN, PASSWORD, SECRET, QUERY = 'another-token-of-36-characters-98765', 'a-password-of-a-keystore', 'a-secret-of-a-keystore', 'a-secret-in-a-query'

def another_chain(link, request):
    """A node of another chain, which answers nothing else."""
    path = request.split(b' ')[1]
    genesis = {'genesis_time': '7', 'genesis_validators_root': '0x' + '66' * 32, 'genesis_fork_version': '0x00000001'}
    known = {b'/eth/v1/node/version': {'version': 'other/2'}, b'/eth/v1/beacon/genesis': genesis}
    answers(200, json.dumps({'data': known[path]}).encode())(link, request) if path in known else answers(404, b'{"message":"none here"}')(link, request)

def of_epochs(name, quiet, second, token):
    """The program, which starts two slots before an epoch's end, over these nodes, one of another chain and one that is not there: with a vote that is refused, and
    keys that are to come and go."""
    sessions(name, [{'op': 'activate', 'pubkey': key(n)} for n in (0, 1, 2, 3, 5)] + [vote(3, 31, OTHER)])
    genesis = int(time.time()) - 2 - BEGINS * SLOT
    blocks, votes = {31: 0, 32: 1, 33: 2}, {0: 31, 3: 31, 1: 32, 2: 33, 4: 33, 5: 33}
    node.set(genesis_time=genesis, blocks=blocks, votes=votes)
    node.take(), signer.take()
    due = {(slot, 'block', key(n)) for slot, n in blocks.items()} | {(slot, 'vote', key(n)) for n, slot in votes.items() if n != 5}
    with socket.create_server(('127.0.0.1', 0)) as free:
        gone = '127.0.0.1:%d' % free.getsockname()[1]
    nodes = [(node.url, HEALTHY), (second.url, 'other/2'), ('http://' + gone, 'does not answer')]
    child = serve(name, 4, 11, nodes=[url for url, _ in nodes], options=['--quiet'] * quiet, token=('--token-file', token))
    run = Run(child, due, genesis, signer.url, nodes, 5, quiet)
    run.hidden += [WRONG_TOKEN, PASSWORD, SECRET, QUERY]
    return run, gone

def asks_with_secrets(run):
    """What is wrong with the replies to requests that are refused, take keys in and give keys up, each with a secret; and what is to be told of them: faults, and
    news."""
    no_token, wrong_token = compact({'message': 'no token'}), compact({'message': 'wrong token'})
    keystores = '/eth/v1/keystores'
    def sends(method, target, value=None, token=TOKEN, chunked=False):
        body = b'' if value is None else compact(value).encode()
        head = '%s %s HTTP/1.1\r\nHost: a\r\n' % (method, target) + ('Authorization: Bearer %s\r\n' % token if token else '')
        framed = b'%x\r\n%s\r\n0\r\n\r\n' % (len(body), body) if chunked else body
        head += 'Transfer-Encoding: chunked\r\n\r\n' if chunked else 'Content-Length: %d\r\n\r\n' % len(body)
        return answered([head.encode() + framed])[0]
    def said(come):
        return [(of['status'], of['message']) for of in json.loads(come.partition(b'\r\n\r\n')[2])['data']]
    def text(number):
        return json.dumps({'pubkey': key(number)[2:], 'crypto': SECRET})
    came = [sends('GET', keystores + '?of=' + QUERY, token=''), sends('DELETE', keystores, {'pubkeys': [key(0)]}, ''), sends('DELETE', keystores + '?of=' + QUERY, {'pubkeys': [key(0)]}, WRONG_TOKEN)]
    wrong = ['%r' % of for of, wanted in zip(came, (refusal(401, 'no token'), refusal(401, 'no token'), refusal(403, 'wrong token'))) if of != wanted]
    imported = sends('POST', keystores, {'keystores': [text(4), SECRET, text(6)], 'passwords': [PASSWORD] * 3})
    deleted = sends('DELETE', keystores + '?of=' + QUERY, {'pubkeys': [key(5), key(9)]})
    failed = []
    for number, how in ((7, {'takes_no_key': True}), (8, {'repeats': 'in a message'}), (10, {'repeats': 'in no form'})):
        signer.set(**how)
        failed += [of for of in said(sends('POST', keystores, {'keystores': [text(number)], 'passwords': [PASSWORD]}))]
        signer.set(takes_no_key=False, repeats='')
    unread, chunked = sends('POST', keystores, {'keystores': SECRET, 'passwords': PASSWORD}), sends('DELETE', keystores, {'pubkeys': [key(9)]}, chunked=True)
    wrong += [] if said(imported) == [('imported', ''), ('error', 'bad keystore'), ('imported', '')] else [repr(imported)]
    wrong += [] if said(deleted) == [('deleted', ''), ('not_found', '')] and said(chunked) == [('not_found', '')] else [repr((deleted, chunked))]
    wrong += [] if [of for of, _ in failed] == ['error'] * 3 and failed[0][1].startswith('signer: ') and failed[1][1].startswith('signer: {') and failed[2][1] == 'signer: bad answer' else [repr(failed)]
    wrong += [] if unread == refusal(400, 'bad member: keystores') else [repr(unread)]
    wrong += not_so('a listing', LISTS, reply(200, compact({'data': [{'derivation_path': '', 'readonly': False, 'validating_pubkey': key(n)} for n in (0, 1, 2, 3, 4, 6)]})), 4)
    faults = [told_of('GET ' + keystores, 401, no_token), told_of('DELETE ' + keystores, 401, no_token), told_of('DELETE ' + keystores, 403, wrong_token), told_of('POST ' + keystores, 400),
              API + 'a key that cannot be read: error: bad keystore', API + key(7) + ': error: signer', at(signer) + 'POST /eth/v1/keystores: refused', API + key(8) + ': error: signer',
              API + key(10) + ': error: signer: bad answer', at(signer) + 'POST /eth/v1/keystores: unreadable: %d bytes' % len(json.dumps({'nothing': {'keystores': [text(10)], 'passwords': [PASSWORD]}}))]
    news = [API + key(n) + ': imported' for n in (4, 6)] + [API + key(5) + ': deleted', API + key(9) + ': not_found', API + key(9) + ': not_found']
    news += [told_of('POST ' + keystores, 200)] * 4 + [told_of('DELETE ' + keystores, 200, of.partition(b'\r\n\r\n')[2].decode()) for of in (deleted, chunked)]
    return wrong, faults, news

def slowest_amiss(run):
    """What is wrong where the time that an epoch's line names is not the one that passed until the latest line of a slot came, from when its votes were due."""
    came, wrong = {}, []
    for moment, line in run.out:
        slot = int(line.split(' ')[0])
        if not line.endswith(' nodes none'):
            came[slot // 32] = max(came.get(slot // 32, 0), moment - run.genesis - slot * SLOT - THIRD)
    for line in run.lines():
        if told := re.fullmatch(r'epoch (\d+): .* slowest (\d+\.\d) s', line):
            took = came.get(int(told[1]), -1)
            wrong += [] if -0.5 < float(told[2]) - took < 0.2 else ['epoch %s: slowest %s s in place of %.1f' % (told[1], told[2], took)]
    return wrong

def standard_error(name, quiet):
    """Each line of standard error is one that the table has, those that must come do, and no secret is in any; with `--quiet` faults and refusals alone. The counts of
    an epoch are those of the lines and of what was posted."""
    token, second = os.path.join(folder, name + '.token'), Peer(another_chain)
    with open(token, 'w') as file:
        file.write(TOKEN + '\n')
    os.chmod(token, 0o644)
    run, gone = of_epochs(name, quiet, second, token)
    wait_until(run.genesis + 31 * SLOT + THIRD + 2)
    wrong, faults, news = asks_with_secrets(run)
    node.set(refuses=2, garbled=['/eth/v1/beacon/states/head/fork'])
    wait_until(run.genesis + 33 * SLOT - 2)
    node.set(garbled=['/eth/v2/validator/blocks/33'])
    faults += ['validator: %s: others than its owner may read the token in it' % re.escape(token), 'validator: beacon node %s is of another chain: genesis validators root 0x%s' % (second.url, '66' * 32),
               'validator: beacon node %s has genesis time 7, and the first node %d' % (second.url, run.genesis)]
    faults += [at(node) + 'POST %s: 503 %s' % (path, re.escape(TAKES_NONE)) for path in (BLOCKS, VOTES)]
    garbled = 'unreadable: ' + re.escape(json.dumps({'data': GARBLE}))
    faults += [at(node) + 'GET /eth/v1/beacon/states/head/fork: ' + garbled, at(node) + r'GET /eth/v2/validator/blocks/33\S*: ' + garbled]
    told = [(line, count, count) for line, count in collections.Counter(faults + news * (not quiet)).items()]
    told += [(re.escape(gone) + ': ' + REFUSES, 2, None), (place_of(second) + CALL + re.escape('404 {"message":"none here"}'), 2, None)]
    other = {(31, 'vote', key(3)): 'refused double_vote', (33, 'block', key(2)): 'nodata none'}
    twice = {duty: 2 for duty in run.due if duty[0] == 32}
    wrong += run.amiss(told, other, ['32 nodes none'], posts=twice, keys={0: 5, 1: 6}, by=run.genesis + 35 * SLOT + 30)
    node.set(garbled=[])
    sent = collections.Counter(slot // 32 for slot, kind, pubkey in run.accepted)
    epochs = {int(found[1]): int(found[2]) for line in run.lines() if (found := re.fullmatch(r'epoch (\d+): .*, (\d+) sent, .*', line))}
    wrong += [] if quiet or epochs == sent else ['%s sent in place of %s' % (epochs, dict(sent))]
    return wrong + slowest_amiss(run)

# ---- blocks of two versions

def blocks_of_altair(name):
    """Blocks are Altair's from epoch 1 on: one of each version is signed whole and posted as it was signed, and one of phase 0 after that is not the duty's."""
    sessions(name, [{'op': 'activate', 'pubkey': key(n)} for n in range(3)])
    genesis, blocks = int(time.time()) - 2 - BEGINS * SLOT, {31: 0, 32: 1, 33: 2}
    node.set(genesis_time=genesis, blocks=blocks, votes={}, versions={32: 'altair'})
    node.take(), signer.take()
    due = {(slot, 'block', key(n)) for slot, n in blocks.items()}
    run = Run(serve(name, 4, 0, options=['--altair', '1']), due, genesis, signer.url, [(node.url, HEALTHY)], 3)
    wrong = run.amiss(other={(33, 'block', key(2)): 'nodata differs'}, by=genesis + 35 * SLOT + 30)
    node.set(versions={})
    wrong += [] if run.versions == {31: 'PHASE0', 32: 'ALTAIR'} else ['the service was sent the versions %s' % run.versions]
    whole = {int(body['message']['slot']): 'sync_aggregate' in body['message']['body'] for _, body in posted(run.handed)}
    return wrong + ([] if whole == {31: False, 32: True} else ['posted with a sync aggregate or without: %s' % whole])

SCENES = {
    'first_node_swallows': lambda name: first_node(name, swallow, TIMED_OUT),
    'first_node_drips': lambda name: first_node(name, drip, TIMED_OUT),
    'first_node_breaks_off': lambda name: first_node(name, break_off, UNREADABLE),
    'first_node_talks_rubbish': lambda name: first_node(name, rubbish, UNREADABLE),
    'first_node_sends_no_json': lambda name: first_node(name, no_json, NO_JSON, 'of no known version'),
    'two_nodes_swallow': lambda name: first_node(name, swallow, TIMED_OUT, count=2),
    'two_addresses_swallow': lambda name: named_node(name, lambda host, at: Peer(swallow, host, at), 2, TIMED_OUT, 2.6),
    'three_addresses_swallow': lambda name: named_node(name, lambda host, at: Peer(swallow, host, at), 3, TIMED_OUT, 2.6),
    'three_addresses_take_no_connection': lambda name: named_node(name, Full, 3, timed_out_unconnected, 2.6),
    'a_name_without_address': lambda name: named_node(name, None, 0, has_no_address, 1),
    'signer_swallows_one_key': lambda name: one_key(name, swallow, 'fault', 'timed out', seconds=(2.9, 4)),
    'signer_drips_for_one_key': lambda name: one_key(name, drip_signature, 'fault', 'timed out', seconds=(2.9, 4)),
    'signer_resets_for_one_key': lambda name: one_key(name, reset, 'fault', r'Connection reset by peer \(os error 104\)'),
    'signer_breaks_off_in_the_head': lambda name: one_key(name, break_in_head, 'bad_answer', 'unreadable: '),
    'signer_breaks_off_in_the_body': lambda name: one_key(name, break_in_body, 'bad_answer', 'unreadable: '),
    'signer_talks_no_http': lambda name: one_key(name, no_http, 'bad_answer', 'unreadable: '),
    'signer_sends_rubbish': lambda name: one_key(name, answers(200, LONG), 'bad_answer', 'unreadable: ' + shown(LONG)),
    'signer_sends_no_signature': lambda name: one_key(name, answers(200, NO_SIGNATURE), 'bad_answer', 'unreadable: ' + shown(NO_SIGNATURE)),
    'signer_refuses_one_key': lambda name: one_key(name, answers(503, AWAY_503), 'denied', '503 ' + shown(AWAY_503), tries=1),
    'signer_comes_back': signer_comes_back,
    'node_takes_posts_late': posts_are_taken_late,
    'api_connection_drips': dripping,
    'api_drips_next_to_a_caller': drips_next_to_a_caller,
    'few_files': few_files,
    'api_refuses_early': refused_early,
    'api_expects_continue': asks_before_its_body,
    'api_asked_and_slow': asked_and_slow,
    'api_serves_at_the_end': ends_at_once,
    'api_no_line_feed': no_line_feed,
    'api_reader_is_slow': slow_reader,
    'api_last_reader_is_slow': last_is_slow,
    'output_reader_leaves': reader_leaves,
    'api_port_is_taken': port_is_taken,
    'journal_disk_is_full': full_disk,
    'clock_jumps_and_comes_back': clock_steps,
    'clock_goes_back_in_a_watch': clock_goes_back_in_a_watch,
    'token_of_a_file': token_of_a_file,
    'blocks_of_altair': blocks_of_altair,
    **trouble_aggregates.scenes(stepped),
    'standard_error': lambda name: standard_error(name, False),
    'standard_error_when_quiet': lambda name: standard_error(name, True),
}

failed = False
asked = sys.argv[3:] or list(SCENES)
wanted('there is no scene ' + ' '.join(name for name in asked if name not in SCENES), all(name in SCENES for name in asked))
for name in asked:
    try:
        faults = SCENES[name](name)
    except (OSError, ValueError, LookupError, subprocess.SubprocessError) as fault:
        faults = [repr(fault)]
    for child in RUNNING:
        if child.poll() is None:
            child.kill()
            faults = faults + ['it was still there after the scene']
    RUNNING.clear()
    failed |= bool(faults)
    print('FAIL %s: %s' % (name, '; '.join(brief(fault) for fault in faults)) if faults else 'pass %s' % name, flush=True)
shutil.rmtree(folder)
sys.exit(failed)
