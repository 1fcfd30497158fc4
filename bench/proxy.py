"""The built program as a signing proxy (`proxy.sh`): its speed, a storm of slashable requests, the requests of the clients of the field, and peers that hang."""
import atexit, collections, json, os, pickle, re, shutil, signal, socket, statistics, subprocess, sys, tempfile, threading, time
from proxy_peers import *
try:
    from standard_error import unfit
except SystemExit as why:
    print('note: standard error is not compared with docs/RUNBOOK.md: %s' % why)
    unfit = lambda lines, quiet=False: []

program = os.path.abspath(sys.argv[1])
seconds = int(sys.argv[2]) if len(sys.argv) > 2 else 60
scenes = sys.argv[3:] or ['times', 'storm', 'forms', 'peers', 'lists', 'ends']
LANES, MANY_KEYS, STORM_KEYS, PLACES, EXITS = 16, 64, 4, 256, 64
folder = tempfile.mkdtemp(prefix='proxy-', dir=os.environ.get('FOLDER'))
wrong, errors, children = [], [], []
service = Service()

@atexit.register
def leave():
    for child in children:
        if child.poll() is None:
            child.kill()
    shutil.rmtree(folder, ignore_errors=True)

signal.signal(signal.SIGTERM, lambda *_: sys.exit(1))

def fault(what):
    if what not in wrong:
        print('FAULT: ' + what, flush=True)
    wrong.append(what)

def goal(what, is_met):
    print('%s: goal %s' % (what, 'met' if is_met else 'missed'), flush=True)

def at_share(times, share):
    return times[min(len(times) - 1, int(len(times) * share))]

# ---- the program

def free_port():
    with socket.socket() as free:
        free.bind(('127.0.0.1', 0))
        return free.getsockname()[1]

class Proxy:
    """The program over a journal, at a port of its own; started again over the same journal it has the same port."""

    def __init__(self, journal, keys=0, lanes=LANES, options=(), genesis=GENESIS):
        self.journal, self.port, self.genesis = os.path.join(folder, journal), free_port(), genesis
        self.errors = self.journal + '.errors'
        self.words = [program, 'proxy', '--genesis', genesis, '--genesis-time', str(int(time.time()) - 384 * 100), '--journal', self.journal, '--signer', 'http://127.0.0.1:%d' % service.port,
                      '--listen', '127.0.0.1:%d' % self.port, '--token', TOKEN, *([] if lanes is None else ['--lanes', str(lanes)]), *options]
        errors.append(self.errors)
        self.start()
        for first in range(0, keys, 50):
            self.take_in(range(first, min(keys, first + 50)))

    def start(self):
        with open(self.errors, 'a') as said:
            self.child = subprocess.Popen(self.words, stdin=subprocess.DEVNULL, stdout=subprocess.PIPE, stderr=said)
        children.append(self.child)
        for _ in range(600):
            reply = exchange(self.port, request('GET', '/upcheck'))
            if reply == (200, b'OK'):
                return
            if self.child.poll() is not None:
                break
            time.sleep(0.1)
        with open(self.errors) as said:
            sys.exit('bench/proxy.sh: the proxy does not serve; status %s: %s%s' % (self.child.poll(), self.child.stdout.read() if self.child.poll() is not None else '', said.read()))

    def take_in(self, keys):
        body = {'keystores': [json.dumps({'pubkey': key(n)[2:]}) for n in keys], 'passwords': ['x'] * len(keys)}
        reply = exchange(self.port, request('POST', KEYSTORES, body, 'Authorization: Bearer %s\r\n' % TOKEN), 300)
        if not reply or reply[0] != 200 or {row['status'] for row in json.loads(reply[1])['data']} != {'imported'}:
            sys.exit('bench/proxy.sh: keys are not taken in: %s' % (reply,))

    def stop(self, how=signal.SIGTERM):
        """Ends it, and gives its status and what it wrote to standard output."""
        self.child.send_signal(how)
        return self.child.wait(60), self.child.stdout.read()

    def files(self):
        return len(os.listdir('/proc/%d/fd' % self.child.pid))

    def resident(self):
        with open('/proc/%d/status' % self.child.pid) as status:
            return next(int(line.split()[1]) for line in status if line.startswith('VmRSS'))

    def kept(self):
        """What `show` says is kept of the journal: for each key the blocks and the votes."""
        said = subprocess.run([program, 'show', '--genesis', self.genesis, '--journal', self.journal], capture_output=True, text=True)
        if said.returncode:
            fault('show over the journal ends with %d: %s%s' % (said.returncode, said.stdout, said.stderr))
        return {words[0]: (int(words[3]), int(words[5])) for words in map(str.split, said.stdout.splitlines()) if len(words) > 5}

# ---- times

def rate_of(said):
    return '%.0f, %.2f, %.2f' % (said[0], 1000 * at_share(said[1], 0.5), 1000 * at_share(said[1], 0.99))

def throughput(proxy, each):
    """A line for each delay of the service and each number of clients. What 16 get through the proxy of what they get of the service with a delay of 20 ms."""
    first, share = 100_000, 0
    print('| ms a signature | connections | through the proxy: signatures a second, median ms, 99th ms | the service itself | share |\n|---|---|---|---|---|')
    for delay in (0, 20):
        service.set(delay=delay / 1000)
        for connections in (1, 4, 16):
            through = votes_over(proxy.port, range(MANY_KEYS), connections, first, each)
            straight = votes_over(service.port, range(MANY_KEYS), connections, first, each)
            first, share = first + 50_000, through[0] / straight[0]
            print('| %d | %d | %s | %s | %.2f |' % (delay, connections, rate_of(through), rate_of(straight), share), flush=True)
            for said in (through, straight):
                if said[2]:
                    fault('a vote of %d connections was not signed: %s' % (connections, said[2]))
    service.set(delay=0)
    return share

def two_syncs(file, sync):
    begun = time.perf_counter()
    for _ in range(2):
        os.write(file, bytes(200))
        sync(file)
    return time.perf_counter() - begun

def added(proxy, first, pause, rounds=20, turns=25):
    """The medians of one signature through the proxy and of the service itself, and of two syncs of the same disk, in turns, after pauses: seconds. A turn has
    two syncs, as a signature has."""
    times = collections.defaultdict(list)
    file = os.open(os.path.join(folder, 'raw'), os.O_WRONLY | os.O_CREAT | os.O_APPEND, 0o600)
    for turn in range(rounds * turns):
        for name, port in (('proxy', proxy.port), ('service', service.port)) if turn // turns % 2 else (('service', service.port), ('proxy', proxy.port)):
            asked = sign_request(turn % MANY_KEYS, vote_body(first + turn, first + turn + 1))
            time.sleep(pause)
            begun = time.perf_counter()
            reply = exchange(port, asked)
            times[name].append(time.perf_counter() - begun)
            if reply is None or reply[0] != 200:
                fault('a vote was not signed: %s' % (reply,))
        time.sleep(pause)
        sync = os.fsync if turn % 2 else os.fdatasync
        times[sync.__name__].append(two_syncs(file, sync))
    os.close(file)
    return {name: statistics.median(of) for name, of in times.items()}

def slot_at_once(proxy):
    """How long a slot's votes take that are all asked for at once, as a client of many keys does."""
    service.set(delay=0.02)
    for place, count in enumerate((64, 256, 512)):
        texts = [sign_request(n % MANY_KEYS, vote_body(900_000 + 100 * place + n // MANY_KEYS, 900_001 + 100 * place + n // MANY_KEYS)) for n in range(count)]
        # (votes of one key may be decided in any order: those of a later epoch first do no harm)
        (through, others), (straight, _) = at_once(proxy.port, texts), at_once(service.port, texts)
        print('%d votes at once, 20 ms: the last in %.3f s through the proxy, %.3f by the service itself' % (count, (through or [0])[-1], (straight or [0])[-1]), flush=True)
        if others:
            fault('of %d votes at once %d were signed; what came of the others: %s' % (count, len(through), dict(others)))
    service.set(delay=0)

def idle(proxy, for_seconds=3):
    """The share of a processor that the proxy takes while nobody calls."""
    def ticks():
        with open('/proc/%d/stat' % proxy.child.pid) as stat:
            return sum(map(int, stat.read().rpartition(')')[2].split()[11:13]))
    before = ticks()
    time.sleep(for_seconds)
    print('while nobody calls the proxy takes %.1f %% of a processor' % (100 * (ticks() - before) / os.sysconf('SC_CLK_TCK') / for_seconds), flush=True)

def scene_times():
    proxy = Proxy('times', MANY_KEYS)
    share = throughput(proxy, max(1, min(5, seconds / 12)))
    goal('16 connections and 20 ms: %.2f of what the service itself gives; wanted at least 0.9' % share, share >= 0.9)
    slot_at_once(proxy)
    idle(proxy)
    proxy.stop()
    proxy = Proxy('one', MANY_KEYS, lanes=None)
    for place, pause in enumerate((0, 0.0005, 0.02)):
        of = added(proxy, 1_000_000 * (place + 1), pause, rounds=20 if pause < 0.001 else 4)
        more = of['proxy'] - of['service']
        print('one signature, medians, %.1f ms before each: %.3f ms through the proxy, %.3f by the service itself: the proxy adds %.3f ms; twice 200 bytes and a sync: %.3f ms by fsync, %.3f by fdatasync'
              % tuple(1000 * it for it in (pause, of['proxy'], of['service'], more, of['fsync'], of['fdatasync'])))
        goal('what the proxy adds is %.2f times two syncs; wanted at most 2.5' % (more / of['fsync']), more <= 2.5 * of['fsync'])
    proxy.stop()

# ---- a storm

def in_storm(proxy):
    """Has the clients ask, and kills the proxy twice meanwhile. Each request with its reply."""
    begun, paths = time.time() + 1, [os.path.join(folder, 'client%d' % n) for n in range(16)]
    clients = [forked.Process(target=storm_client, args=(n, proxy.port, STORM_KEYS, begun, seconds, 10, path)) for n, path in enumerate(paths)]
    for client in clients:
        client.start()
    for share in (1 / 3, 2 / 3):
        time.sleep(max(0, begun + seconds * share - time.time()))
        proxy.stop(signal.SIGKILL)
        proxy.start()
    rows = []
    for client, path in zip(clients, paths):
        client.join()
        with open(path, 'rb') as file:
            rows += pickle.load(file)
    return rows

def root_known(asked, known={}):
    if asked not in known:
        known[asked] = signing_root(body_of(asked))
    return known[asked]

def given_in(rows):
    """What was signed by the replies of status 200, each of which must have the signature of the root."""
    given = set()
    for asked, reply in rows:
        if reply and reply[0] == 200:
            pubkey, root = key(asked[1]), root_known(asked)
            if json.loads(reply[1]) != {'signature': signature_of(pubkey, root)}:
                fault('a reply of status 200 has another signature than that of %s: %s' % (asked, reply[1]))
            given.add(message_of(pubkey, body_of(asked), root))
    return given

def signed_in(noted):
    """What the service was asked to sign, each of which must name the root of its object."""
    signed = set()
    for target, text in noted:
        body = json.loads(text)
        if body['signingRoot'] != signing_root(body):
            fault('the service was asked to sign another root than that of the object: %s' % text)
        signed.add(message_of(target[len(SIGN):], body, body['signingRoot']))
    return signed

def word_of(reply):
    if reply is None:
        return 'no whole reply'
    return '%d' % reply[0] if reply[0] == 200 else '%d %s' % (reply[0], json.loads(reply[1]).get('message'))

def again(proxy, given):
    """Asks for some votes again that were signed, and for others of their targets, over the same journal."""
    votes = sorted(message for message in given if message[1] == 'vote')[-20:]
    for pubkey, _, source, target, root in votes:
        bodies = {signing_root(body): body for body in (vote_body(source, target, variant) for variant in range(4))}
        replies = [word_of(exchange(proxy.port, request('POST', SIGN + pubkey, body))) for body in (bodies.pop(root), *bodies.values())]
        if replies != ['200'] + ['412 double_vote'] * 3:
            fault('a vote that was signed and others of its target are answered so after a start: %s' % replies)
    return len(votes)

def scene_storm():
    if not try_the_check():
        sys.exit('bench/proxy.sh: the check for slashable pairs is wrong')
    proxy = Proxy('storm', STORM_KEYS)
    service.take()
    service.set(notes=True, breaks=97)
    rows = in_storm(proxy)
    # (what was asked for and not replied to may still be on its way to the service)
    time.sleep(4)
    noted, _ = service.take()
    service.set(notes=False, breaks=0)
    given, signed = given_in(rows), signed_in(noted)
    print('a storm of %d s: %d requests of 16 clients for %d keys, 2 kills; of what was asked for %d pairs are slashable'
          % (seconds, len(rows), STORM_KEYS, slashable_pairs(message_of(key(asked[1]), body_of(asked), root_known(asked)) for asked in {asked for asked, _ in rows})))
    for word, count in sorted(collections.Counter(word_of(reply) for _, reply in rows).items()):
        print('  %s: %d' % (word, count))
    print('different messages: %d in replies of status 200, %d that reached the service' % (len(given), len(signed)))
    pairs = slashable_pairs(given), slashable_pairs(signed)
    print('slashable pairs: %d\nslashable pairs of what reached the service: %d' % pairs, flush=True)
    if any(pairs):
        wrong.append('slashable pairs')
    if not given <= signed:
        fault('%d messages were replied to and never reached the service: %s' % (len(given - signed), sorted(given - signed)[:3]))
    after_the_storm(proxy, given, signed)

def after_the_storm(proxy, given, signed):
    status, _ = proxy.stop()
    kept = proxy.kept()
    for pubkey in {message[0] for message in signed}:
        wanted = tuple(sum(message[:2] == (pubkey, kind) for message in signed) for kind in ('block', 'vote'))
        if any(has < of for has, of in zip(kept.get(pubkey, (0, 0)), wanted)):
            fault('of %s the journal has %s blocks and votes, and the service signed %s' % (pubkey, kept.get(pubkey), wanted))
    proxy.start()
    print('after the storm: status %d; %d votes and the others of their targets were asked for again' % (status, again(proxy, given)))
    proxy.stop()

# ---- clients of the field

LOWER, USUAL = 'host: {host}\r\ncontent-type: application/json\r\ncontent-length: {length}\r\n', 'Host: {host}\r\nContent-Type: application/json\r\nContent-Length: {length}\r\n'

# The client, what its request has, its fields, the member that names the root, and whether it asks for JSON.
FORMS = [
    ('Lighthouse', 'names in lower case, root', LOWER + 'accept: application/json\r\nuser-agent: Lighthouse/v7.0.0\r\n', 'signingRoot', True),
    ('Teku', 'an upgrade to h2c offered, no Accept', 'Connection: Upgrade, HTTP2-Settings\r\n' + USUAL + 'HTTP2-Settings: AAEAAEAAAAIAAAABAAMAAABkAAQBAAAAAAUAAEAA\r\nUpgrade: h2c\r\nUser-Agent: Java-http-client/21\r\n', 'signingRoot', False),
    ('Prysm', 'no Accept, gzip accepted', USUAL + 'User-Agent: Go-http-client/1.1\r\nAccept-Encoding: gzip\r\n', 'signingRoot', False),
    ('Nimbus', 'keep-alive asked for', USUAL + 'Accept: application/json\r\nConnection: keep-alive\r\nUser-Agent: nimbus\r\n', 'signingRoot', True),
    ('Lodestar', 'fields of fetch, JSON asked for', LOWER + 'connection: keep-alive\r\naccept: application/json\r\naccept-language: *\r\nsec-fetch-mode: cors\r\nuser-agent: node\r\naccept-encoding: gzip, deflate\r\n', 'signingRoot', True),
    ('the API', 'fields of fetch, any form taken', LOWER + 'connection: keep-alive\r\naccept: */*\r\naccept-language: *\r\nsec-fetch-mode: cors\r\nuser-agent: node\r\naccept-encoding: gzip, deflate\r\n', 'signingRoot', False),
    ('the API', 'root by its other name', USUAL + 'Accept: application/json\r\n', 'signing_root', True),
    ('the API', 'no root, names in upper case', (USUAL + 'Accept: application/json\r\n').replace('Host', 'HOST').replace('Content-Type', 'CONTENT-TYPE').replace('Content-Length', 'CONTENT-LENGTH'), None, True),
    ('the API', 'text asked for', USUAL + 'Accept: text/plain\r\n', 'signingRoot', False),
    ('the API', 'text or JSON asked for', USUAL + 'accept: text/plain, application/json\r\n', 'signingRoot', True),
    ('the API', 'JSON asked for in another field', USUAL + 'Accept: text/plain\r\nACCEPT: application/json;q=0.5\r\n', 'signingRoot', True),
    ('the API', 'JSON asked for in upper case', USUAL + 'Accept: APPLICATION/JSON\r\n', 'signingRoot', False),
    ('a gateway', 'a request of HTTP/1.0', USUAL + 'Connection: close\r\n', 'signingRoot', False),
    ('a gateway', 'in chunks', 'Host: {host}\r\nContent-Type: application/json; charset=utf-8\r\nTransfer-Encoding: chunked\r\nX-Forwarded-For: 10.0.0.1\r\n', 'signingRoot', False),
    ('a client that waits', 'Expect: 100-continue', USUAL + 'Expect: 100-continue\r\nAccept: application/json\r\n', 'signingRoot', True),
]

def plain_bodies(number_of_form):
    slot, epoch = str(640 + number_of_form), str(20 + number_of_form)
    contribution = {'slot': slot, 'beacon_block_root': '0x' + '22' * 32, 'subcommittee_index': '1', 'aggregation_bits': '0x' + 'ff' * 16, 'signature': '0x' + 'ab' * 96}
    return [
        ('RANDAO_REVEAL', 'randao_reveal', {'epoch': epoch}), ('AGGREGATION_SLOT', 'aggregation_slot', {'slot': slot}), ('VOLUNTARY_EXIT', 'voluntary_exit', {'epoch': epoch, 'validator_index': '7'}),
        ('SYNC_COMMITTEE_MESSAGE', 'sync_committee_message', {'slot': slot, 'beacon_block_root': '0x' + '22' * 32}),
        ('SYNC_COMMITTEE_SELECTION_PROOF', 'sync_aggregator_selection_data', {'slot': slot, 'subcommittee_index': '1'}),
        ('SYNC_COMMITTEE_CONTRIBUTION_AND_PROOF', 'contribution_and_proof', {'aggregator_index': '7', 'contribution': contribution, 'selection_proof': '0x' + 'cd' * 96}),
    ]

def later_bodies(number_of_form):
    """Aggregates of each container; a registration, whose fork, where one is named, is not looked at; and exits from Deneb on, of which some clients name the fork and some Capella's version twice."""
    slot, epoch = 640 + number_of_form, 400_000 + number_of_form
    aggregates = [aggregate_body(slot), *(aggregate_body(slot, version) for version in ('CAPELLA', 'DENEB', 'ELECTRA', 'FULU'))]
    named = ({}, {'fork_info': None}, {'fork_info': fork_info(ELECTRA, OTHER_GENESIS)})[number_of_form % 3]
    forks = DENEB, ELECTRA, {'previous_version': CAPELLA, 'current_version': CAPELLA, 'epoch': str(epoch)}
    return [*aggregates, registration_body(1_764_563_955 + number_of_form, **named), *(exit_body(epoch, fork) for fork in forks)]

def bodies_of(number_of_form):
    """A vote, a block and some of each other type."""
    bodies = [vote_body(20 + number_of_form, 21 + number_of_form), block_body(640 + number_of_form)]
    bodies += [{'type': kind, 'fork_info': fork_info(), name: value} for kind, name, value in plain_bodies(number_of_form)]
    return bodies + later_bodies(number_of_form)

def sent_as(port, fields, body, version='1.1'):
    """Sends a request with these fields: the reply, and how many responses of status 100 came before it."""
    text, asks = json.dumps(body).encode(), 'Expect' in fields
    head = ('POST %s%s HTTP/%s\r\n' % (SIGN, key(0), version) + fields.format(host='127.0.0.1:%d' % port, length=len(text)) + '\r\n').encode()
    if 'chunked' in fields:
        text = b''.join(b'%x;a=b\r\n%s\r\n' % (len(text[at:at + 100]), text[at:at + 100]) for at in range(0, len(text), 100)) + b'0\r\n\r\n'
    try:
        with connected(port, 10) as link:
            link.sendall(head)
            if asks and not link.recv(100).startswith(b'HTTP/1.1 100'):
                return None
            link.sendall(text)
            return read_reply(link)
    except OSError:
        return None

def form_in(reply, root):
    """Whether a reply is the signature of the root, and in what form: its media type; None where it is not."""
    if reply is None or reply[0] != 200:
        return None
    media, signature = re.search(rb'(?i)content-type: *([^\r]*)', reply[1])[1], signature_of(key(0), root)
    texts = {b'application/json': json.dumps({'signature': signature}, separators=(',', ':')), b'text/plain; charset=utf-8': signature}
    return media.decode() if texts.get(media) == reply[2].decode() else None

def row_of_form(port, place, client, what, fields, root_name, asks_for_json):
    """Sends a request of each type in this form, and prints what came of it."""
    came, bodies, wanted = [], bodies_of(place), 'application/json' if asks_for_json else 'text/plain; charset=utf-8'
    for body in bodies:
        root = signing_root(body)
        reply = sent_as(port, fields, {**body, **({root_name: root} if root_name else {}), 'extra': [{'a': None}]}, '1.0' if 'HTTP/1.0' in what else '1.1')
        came.append(form_in(reply, root))
        if came[-1] != wanted:
            fault('%s, %s: %s is answered %s' % (client, what, body['type'], reply))
    print('| %s | %s | %d of %d | %s |' % (client, what, sum(form is not None for form in came), len(came), ', '.join(sorted({str(form) for form in came}))), flush=True)

def by_curl(port):
    """By curl: a body above 1 MiB, for which curl waits to be asked, one in chunks, and one with an upgrade offered; and a reply in JSON."""
    forms = (('a body of 2 MiB', (), 2 << 20), ('in chunks', ('-H', 'Transfer-Encoding: chunked'), 0), ('an upgrade to h2c offered', ('--http2',), 0), ('HTTP/1.0', ('--http1.0',), 0), ('JSON asked for', ('-H', 'Accept: application/json'), 0))
    for at, (what, words, more) in enumerate(forms):
        body = {**vote_body(60 + at, 61 + at), 'extra': 'x' * more}
        path = os.path.join(folder, 'body')
        with open(path, 'w') as file:
            json.dump(body, file)
        said = subprocess.run(['curl', '-sS', '-m', '20', '-w', ' %{http_code} %{content_type}', '-H', 'Content-Type: application/json', *words, '--data-binary', '@' + path, 'http://127.0.0.1:%d%s%s' % (port, SIGN, key(0))], capture_output=True, text=True)
        signature, form = signature_of(key(0), signing_root(body)), 'application/json' if 'JSON' in what else 'text/plain; charset=utf-8'
        is_right = said.stdout == (json.dumps({'signature': signature}, separators=(',', ':')) if 'JSON' in what else signature) + ' 200 ' + form
        print('| curl | %s | %d of 1 | %s |' % (what, is_right, form))
        if not is_right:
            fault('curl, %s: %s %s' % (what, said.stdout[:400], said.stderr))

def answers(port, cases, genesis):
    """Sends requests in the usual form, and looks at the word of each reply: what it is of, the body, and the word."""
    for what, body, wanted in cases:
        word = word_of(exchange(port, sign_request(0, body)))
        if word != wanted:
            fault('%s, of the chain %s: %s is answered, wanted %s' % (what, genesis, word, wanted))
    return len(cases)

def named(body, version=None):
    """The request with the root that is signed, or with that under this version."""
    return {**body, 'signingRoot': signing_root(body, version)}

def edges():
    """Requests at the edges of what is taken, on mainnet."""
    before, under = {**DENEB, 'epoch': str(DENEB_EPOCH - 1)}, '400 signing root differs'
    return [
        ('2048 bits of an aggregate without a name', named(aggregate_body(900, None, 2048)), '200'), ('2049 of them', aggregate_body(900, None, 2049), '400 bad member: aggregation_bits'),
        ('2048 bits of one of Deneb', named(aggregate_body(900, 'DENEB', 2048)), '200'), ('2049 of them', aggregate_body(900, 'DENEB', 2049), '400 bad member: aggregation_bits'),
        ('131072 bits of one of Electra', named(aggregate_body(900, 'ELECTRA', 131072)), '200'), ('131073 of them', aggregate_body(900, 'ELECTRA', 131073), '400 bad member: aggregation_bits'),
        ('no bits of one of Fulu', named(aggregate_body(900, 'FULU', 0)), '200'), ('an aggregate of a fork that is not known', aggregate_body(900, 'GLOAS'), '400 bad member: version'),
        ('an aggregate with the root under another version', named(aggregate_body(900, 'ELECTRA'), '0x06000000'), under),
        ('a registration with the root under another version', named(registration_body(1), '0x05000000'), under),
        ('an exit of Electra under Electra\'s version', named(exit_body(400_000, ELECTRA), '0x05000000'), under), ('an exit of the epoch before Deneb', named(exit_body(DENEB_EPOCH, before), '0x04000000'), '200'),
        ('the same under Capella\'s version', named(exit_body(DENEB_EPOCH, before), CAPELLA), under), ('an exit of another chain', named(exit_body(9, FORK, OTHER_GENESIS)), '400 genesis differs'),
        *((kind, {'type': kind, 'fork_info': fork_info()}, '400 bad member: type') for kind in ('DEPOSIT', 'BLOCK')),
    ]

def on_another_chain():
    """What is signed, and refused, on a chain of which no version is known."""
    electra = exit_body(400_000, ELECTRA, OTHER_GENESIS)
    return [
        ('a registration', named(registration_body(1)), '400 unknown network'), ('an exit of Electra under Electra\'s version', named(electra), '200'),
        ('an exit of Electra under Capella\'s version', named(electra, CAPELLA), '400 signing root differs'),
        ('an exit with Capella\'s version twice', named(exit_body(400_000, {**ELECTRA, 'previous_version': CAPELLA, 'current_version': CAPELLA}, OTHER_GENESIS)), '200'),
    ]

def look_at_noted():
    """What reached the service: each request names the root of its object, a registration no fork and no chain, and an exit a fork under which its root is the same whether the service
    goes by that fork or by the rule that exits keep Capella's version."""
    noted, _ = service.take()
    for target, text in noted:
        body = json.loads(text)
        if body['signingRoot'] != signing_root(body) or ('fork_info' in body) == (body['type'] == 'VALIDATOR_REGISTRATION') or ('fork_info' in body and body['signingRoot'] != signing_root(body, version_in_fork(body))):
            fault('the service was asked for another root than that of the object, or under another chain: %s' % text)
    return collections.Counter(json.loads(text)['type'] for _, text in noted)

def scene_forms():
    proxy, other = Proxy('forms', STORM_KEYS), Proxy('other-chain', 1, genesis=OTHER_GENESIS)
    service.take()
    service.set(notes=True)
    print('| client | request | signed | reply |\n|---|---|---|---|')
    for place, form in enumerate(FORMS):
        row_of_form(proxy.port, place, *form)
    if shutil.which('curl'):
        by_curl(proxy.port)
    print('note: Vouch speaks to Dirk, by another protocol, and so to no service of this API; the forms are those that the others are known to send')
    print('%d requests at the edges of what is taken, and %d on a chain that is not known' % (answers(proxy.port, edges(), 'mainnet'), answers(other.port, on_another_chain(), OTHER_GENESIS)))
    print('what reached the service: ' + ', '.join('%d %s' % (count, kind) for kind, count in sorted(look_at_noted().items())))
    service.set(notes=False)
    for target, wanted in ((KEYS, [key(n) for n in range(STORM_KEYS)]), ('/upcheck', None)):
        for accept in ('', 'Accept: text/plain\r\n', 'Accept: application/json\r\n'):
            with connected(proxy.port, 10) as link:
                link.sendall(('GET %s HTTP/1.1\r\nHost: 127.0.0.1\r\n%s\r\n' % (target, accept)).encode())
                reply = read_reply(link)
            if reply is None or reply[0] != 200 or (json.loads(reply[2]) != wanted if wanted else reply[2] != b'OK') or (b'text/plain; charset=utf-8' if wanted is None else b'application/json') not in reply[1]:
                fault('GET %s with %r is answered so: %s' % (target, accept, reply))
    proxy.stop()
    other.stop()

# ---- peers that hang

def greedy(port):
    """A connection that takes next to nothing of what is sent to it."""
    link = socket.socket()
    link.setsockopt(socket.SOL_SOCKET, socket.SO_RCVBUF, 1)
    link.setsockopt(socket.IPPROTO_TCP, socket.TCP_MAXSEG, 536)
    link.connect(('127.0.0.1', port))
    return link

def hanging(port, each):
    """So many peers of each kind: those that are silent, that send half a head, that drip a body, and that never read their reply, small or large."""
    asked = sign_request(0, vote_body(1, 2))
    links = collections.defaultdict(list)
    for n in range(each):
        links['silent'].append(connected(port))
        links['half a head'].append(connected(port))
        links['half a head'][-1].sendall(asked[:60])
        links['drips'].append(connected(port))
        links['drips'][-1].sendall(asked[:asked.index(b'\r\n\r\n') + 4])
        links['reads nothing'].append(greedy(port))
        links['reads nothing'][-1].sendall(request('GET', KEYS) if n % 2 else sign_request(0, vote_body(1, 2)))
    return links

def drip(links, end):
    """Sends a byte of each body a second, as long as that is taken."""
    while time.time() < end and links:
        for link in list(links):
            try:
                link.sendall(b' ')
            except OSError:
                links.remove(link)
        time.sleep(1)

def signed_meanwhile(proxy, until, first):
    """A client that asks for a vote after another until a moment: how many, and how long the longest took."""
    count, longest = 0, 0
    while time.time() < until:
        begun = time.perf_counter()
        reply = exchange(proxy.port, sign_request(count % STORM_KEYS, vote_body(first + count, first + count + 1)), 90)
        longest = max(longest, time.perf_counter() - begun)
        count += 1
        if reply is None or reply[0] != 200:
            fault('next to peers that hang a vote is answered %s' % (reply,))
        time.sleep(0.005)
    return count, longest

def next_to_hanging(lanes, keys, each):
    """The longest time of a signature next to peers that hang. The proxy then, and how many votes it signed."""
    proxy = Proxy('peers%s-%d' % (lanes, keys), keys, lanes)
    count, longest = signed_meanwhile(proxy, time.time() + 2, 1000)
    quiet_files, quiet_longest = proxy.files(), longest
    links, until = hanging(proxy.port, each), time.time() + 35
    threading.Thread(target=drip, args=(links['drips'], until), daemon=True).start()
    time.sleep(0.5)
    during = proxy.files()
    count, longest = signed_meanwhile(proxy, until, 100_000)
    print('%s lanes, %d keys: %d peers that hang, %d of each kind: %d votes of another client signed in 35 s, the longest in %.3f s (%.3f s without them); open files %d before, %d with them, %d then'
          % (lanes or 4, keys, 4 * each, each, count, longest, quiet_longest, quiet_files, during, proxy.files()), flush=True)
    for link in sum(links.values(), []):
        link.close()
    return proxy

def growth(proxy, requests=2000):
    """Files and memory before and after that many signatures."""
    time.sleep(1)
    for epoch in range(200):
        exchange(proxy.port, sign_request(epoch % STORM_KEYS, vote_body(1_000_000 + epoch, 1_000_001 + epoch)))
    before, held, most = proxy.files(), proxy.resident(), 0
    for n in range(requests):
        reply = exchange(proxy.port, sign_request(n % STORM_KEYS, vote_body(2_000_000 + n, 2_000_001 + n)), 90)
        most = max(most, proxy.files())
        if reply is None or reply[0] != 200:
            return fault('of %d more signatures the one of number %d was answered %s; open files %d' % (requests, n, reply, proxy.files()))
    files, resident = proxy.files(), proxy.resident()
    print('%d more signatures: open files %d before, %d at most, %d after; resident %d KiB before, %d after: %.0f bytes each' % (requests, before, most, files, held, resident, 1024 * (resident - held) / requests), flush=True)
    if most - before > PLACES + LANES:
        fault('open files grow with the connections: %d before, %d at most' % (before, most))
    if 1024 * (resident - held) > 120 * requests + (2 << 20):
        fault('memory grows with the connections: %d KiB more for %d votes' % (resident - held, requests))

def full_of_silence(proxy):
    """How long a signature takes while as many peers are silent as may wait at the door."""
    links = [connected(proxy.port) for _ in range(PLACES)]
    begun = time.perf_counter()
    reply = exchange(proxy.port, sign_request(0, vote_body(3_000_000, 3_000_001)), 90)
    print('%d silent peers, as many as may wait: a signature took %.3f s (%s)' % (PLACES, time.perf_counter() - begun, word_of(reply)), flush=True)
    for link in links:
        link.close()

def lingering(proxy, for_seconds=10):
    """How long a signature takes next to as many peers as may leave, each of which has its reply and sends on, a byte now and then, and does not hang up."""
    end = time.time() + for_seconds

    def linger():
        while time.time() < end:
            try:
                with connected(proxy.port, 10) as link:
                    link.sendall(request('GET', '/upcheck'))
                    while time.time() < end:
                        link.sendall(b'x')
                        time.sleep(0.2)
            except OSError:
                pass

    peers = [threading.Thread(target=linger, daemon=True) for _ in range(EXITS)]
    for peer in peers:
        peer.start()
    time.sleep(1)
    count, longest = signed_meanwhile(proxy, end - 1, 4_000_000)
    print('%d peers that have their replies and do not hang up, as many as may leave: %d votes of another client signed in %d s, the longest in %.3f s' % (EXITS, count, for_seconds - 2, longest), flush=True)
    for peer in peers:
        peer.join()

def large_bodies(proxy, count=8, size=16 << 20):
    """The memory of peers without a token that send all of a large body but its last byte."""
    before, links = proxy.resident(), [connected(proxy.port) for _ in range(count)]
    for link in links:
        link.sendall(sign_request(0, b' ' * size)[:-1])
    time.sleep(2)
    held = proxy.resident()
    for link in links:
        link.close()
    reply = exchange(proxy.port, sign_request(0, vote_body(5_000_000, 5_000_001)))
    time.sleep(2)
    print('%d peers, each with all but the last byte of a body of %d MiB: resident %d KiB before, %d with them, %d after (%s)' % (count, size >> 20, before, held, proxy.resident(), word_of(reply)), flush=True)

def scene_peers():
    proxy = next_to_hanging(LANES, STORM_KEYS, 10)
    growth(proxy)
    full_of_silence(proxy)
    lingering(proxy)
    large_bodies(proxy)
    proxy.stop()

def scene_lists():
    """Peers that hang, some of which read nothing of a list of that many keys that the system does not take it for them at once."""
    for lanes in (LANES, None):
        next_to_hanging(lanes, 1000, 10).stop()

# ---- ends

def scene_ends():
    """How it ends by SIGTERM, and after that many connections as were asked for."""
    proxy = Proxy('ends', 1)
    print('SIGTERM: status %d, standard output %r' % proxy.stop())
    proxy.words += ['--connections', '3']
    proxy.start()
    replies = [word_of(exchange(proxy.port, sign_request(0, vote_body(epoch, epoch + 1)))) for epoch in (1, 2)]
    try:
        status = proxy.child.wait(20)
    except subprocess.TimeoutExpired:
        fault('with --connections 3 it does not end after three connections')
        status = proxy.stop()[0]
    print('--connections 3: replies %s, then status %d' % (', '.join(replies), status))
    proxy.words[proxy.words.index('--connections'):] = ['--quiet']
    proxy.start()
    quiet = sum(1 for _ in open(proxy.errors))
    exchange(proxy.port, sign_request(0, vote_body(1, 2, 1)))
    leave_early(proxy.port, sign_request(0, vote_body(5, 6))[:-5])
    proxy.take_in([1])
    proxy.stop()
    with open(proxy.errors) as said:
        print('--quiet: %s' % ('; '.join(mask(line) for line in list(said)[quiet:]) or 'no line'))

MASKS = [('0x[0-9a-f]{96}', 'KEY'), ('0x[0-9a-f]{64}', 'ROOT'), (r'\d+\.\d+\.\d+\.\d+:\d+', 'HOST:PORT'), (r'/\S+\.[ab]\b', 'PATH'), (r'validator \d\S*', 'validator VERSION')]

def mask(line):
    for pattern, word in MASKS:
        line = re.sub(pattern, word, line)
    return line.strip()

def standard_errors():
    """How many lines of each form the proxies wrote to standard error."""
    lines = []
    for path in errors:
        with open(path, errors='replace') as said:
            lines += said.read().splitlines()
    print('lines of standard error, by form:')
    for form, count in sorted(collections.Counter(map(mask, lines)).items()):
        print('  %d: %s' % (count, form))
    if any(TOKEN in line for line in lines):
        fault('standard error has the token')
    for form in sorted(set(map(mask, unfit(lines)))):
        fault('the table of docs/RUNBOOK.md has no such line: ' + form)

for scene in scenes:
    print('-- %s' % scene, flush=True)
    globals()['scene_' + scene]()
standard_errors()
print('%d faults' % len(wrong))
sys.exit(1 if wrong else 0)
