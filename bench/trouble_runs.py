"""What the scenes of `trouble.py` share: peers that misbehave, a run of the program, and what is looked at once it has ended."""
import struct
from faulty_runs import *

slots = int(sys.argv[2]) if len(sys.argv) > 2 else 10
KEYS = 4

# ---- peers that misbehave

class Peer:
    """Reads the request of each connection, and treats it so, in a thread for each. `seen` has of each that is over when it was accepted, when it ended, and
    what it asked."""

    def __init__(self, treat, host='127.0.0.1', at=0):
        self.treat, self.seen = treat, []
        self.listening = socket.create_server((host, at), backlog=128)
        self.at = '%s:%d' % self.listening.getsockname()
        self.url = 'http://' + self.at
        threading.Thread(target=self.take, daemon=True).start()

    def take(self):
        while True:
            link, _ = self.listening.accept()
            threading.Thread(target=self.treated, args=(link,), daemon=True).start()

    def treated(self, link):
        begun, request = time.time(), b''
        try:
            with link:
                request = read_request(link)
                self.treat(link, request)
        except OSError:
            pass
        self.seen.append((begun, time.time(), request.split(b' HTTP/')[0].decode('latin-1')))

def swallow(link, request):
    while link.recv(65536):
        pass

def drip(link, request):
    for byte in b'HTTP/1.1 200 OK\r\nContent-Type: application/json\r\nX-Drip: ' + b'a' * 4000:
        link.send(bytes([byte]))
        time.sleep(0.05)

def break_off(link, request):
    link.sendall(b'HTTP/1.1 200 OK\r\nContent-Type: application/json\r\nContent-Length: 1000\r\n\r\n{"data":')

def rubbish(link, request):
    link.sendall(os.urandom(4096))

def no_json(link, request):
    """Answers with what is no JSON, and takes nothing that is handed in: to a post a status of success would be enough."""
    status = 503 if request.startswith((b'POST %s ' % VOTES.encode(), b'POST %s ' % BLOCKS.encode())) else 200
    answers(status, b'{"data')(link, request)

def reset(link, request):
    link.setsockopt(socket.SOL_SOCKET, socket.SO_LINGER, struct.pack('ii', 1, 0))

def answers(status, body):
    """A peer that gives this answer, whatever it is asked."""
    whole = b'HTTP/1.1 %d OK\r\nContent-Type: application/json\r\nContent-Length: %d\r\nConnection: close\r\n\r\n' % (status, len(body)) + body
    return lambda link, request: link.sendall(whole)

def signature_for(request):
    """The answer of a signing service that signs this."""
    pubkey = request.split(b' ')[1].decode()[len(SIGN):]
    body = json.dumps({'signature': signature_of(pubkey, json.loads(request.partition(b'\r\n\r\n')[2])['signingRoot'])}).encode()
    return b'HTTP/1.1 200 OK\r\nContent-Type: application/json\r\nContent-Length: %d\r\nConnection: close\r\n\r\n' % len(body), body

def drip_signature(link, request):
    for byte in b''.join(signature_for(request)):
        link.send(bytes([byte]))
        time.sleep(0.05)

def break_in_head(link, request):
    link.sendall(signature_for(request)[0][:60])

def break_in_body(link, request):
    head, body = signature_for(request)
    link.sendall(head + body[:100])

def no_http(link, request):
    link.sendall(b'SSH-2.0-OpenSSH_9.2p1 Debian-2\r\n')

class Front(Peer):
    """A signing service before the one here, which treats the requests of one key for signatures so, and hands all others on. `of_key` has those of the
    key that are over."""

    def __init__(self, treat, pubkey):
        self.to, self.of_key, self.treat_key = ('127.0.0.1', signer.port), [], treat
        self.target = b'POST ' + (SIGN + pubkey).encode() + b' '
        super().__init__(self.hand_on)

    def hand_on(self, link, request):
        if request.startswith(self.target):
            begun = time.time()
            try:
                self.treat_key(link, request)
            finally:
                self.of_key.append((begun, time.time()))
            return
        with socket.create_connection(self.to) as other:
            other.sendall(request)
            while piece := other.recv(65536):
                link.sendall(piece)

class Gate:
    """Hands what comes to a server on, while it is open; while it is shut nobody listens at its port."""

    def __init__(self, to):
        self.to, self.listening = to, None
        with socket.create_server(('127.0.0.1', 0)) as free:
            self.port = free.getsockname()[1]
        self.url = 'http://127.0.0.1:%d' % self.port

    def open(self):
        self.listening = socket.create_server(('127.0.0.1', self.port), backlog=128)
        threading.Thread(target=self.take, args=(self.listening,), daemon=True).start()

    def shut(self):
        listening, self.listening = self.listening, None
        if listening:
            listening.shutdown(socket.SHUT_RDWR)
            listening.close()

    def take(self, listening):
        try:
            while True:
                link, _ = listening.accept()
                other = socket.create_connection(('127.0.0.1', self.to.port))
                for ends in ((link, other), (other, link)):
                    threading.Thread(target=self.hand_on, args=ends, daemon=True).start()
        except OSError:
            pass

    def hand_on(self, source, sink):
        try:
            while piece := source.recv(65536):
                sink.sendall(piece)
            sink.shutdown(socket.SHUT_WR)
        except OSError:
            pass

# ---- runs

# What standard error has of an exchange with a service, at `HOST:PORT`.
CALL = r'(?:GET|POST) /\S*: '
REFUSES = r'Connection refused \(os error 111\)'

def at(server):
    return r'127\.0\.0\.1:%d: ' % server.port

def place_of(peer):
    return re.escape(peer.at) + ': '

class Run:
    """The program as it runs: what is due, and what comes on its outputs, each line with its moment."""

    def __init__(self, child, due, genesis, signing, nodes, keys=KEYS, quiet=False, reads=True):
        self.child, self.due, self.genesis, self.signing, self.nodes, self.keys, self.quiet = child, due, genesis, signing, nodes, keys, quiet
        self.out, self.told, self.hidden = [], [], [TOKEN]
        streams = [(child.stderr, self.told)] + ([(child.stdout, self.out)] if reads else [])
        self.readers = [threading.Thread(target=self.read, args=of, daemon=True) for of in streams]
        for reader in self.readers:
            reader.start()
        RUNNING.append(child)

    def read(self, stream, kept):
        for line in stream:
            kept.append((time.time(), line.rstrip('\n')))

    def lines(self):
        return [line for _, line in self.told]

    def end(self, by):
        """The status with which it ended; what has not ended by this moment is killed."""
        try:
            self.child.wait(timeout=max(0, by - time.time()))
        except subprocess.TimeoutExpired:
            self.child.kill()
            self.child.wait()
            return 'none, it did not end'
        finally:
            for reader in self.readers:
                reader.join(10)
        return self.child.returncode

    def started(self):
        """What standard error has of the start: each node with what it says it is."""
        if self.quiet:
            return []
        once = ['validator 0.1.0', 'validator: genesis validators root ' + GENESIS_ROOT, 'validator: Keymanager API at 127.0.0.1:%d' % port, 'validator: signing service ' + self.signing]
        once += ['validator: beacon node %s: %s' % (re.escape(url), said) for url, said in self.nodes]
        return [(line, 1, 1) for line in once] + ([('validator: %d keys' % self.keys, 1, 1)] if self.keys else [])

    def counted(self, lines, nobody, keys):
        """What standard error has of the epochs, by these lines of duties and of questions that no node answered."""
        found = []
        for epoch in sorted({int(line.split(' ')[0]) // 32 for line in lines + nobody}):
            results = [line.split(' ')[3] for line in lines if int(line.split(' ')[0]) // 32 == epoch]
            sent, refused = results.count('sent'), results.count('refused')
            asked = sum(int(line.split(' ')[0]) // 32 == epoch for line in nobody)
            text = r'epoch %d: %s keys; %d duties, %d sent, %d refused, %d missed; %d questions without an answer; slowest \d+\.\d s'
            found.append((text % (epoch, keys.get(epoch, self.keys), len(results), sent, refused, len(results) - sent - refused, asked), 1, 1))
        return [] if self.quiet else found

    def amiss(self, told=(), other=(), nobody=(), lines=None, status=0, posts=(), keys=(), by=None):
        """What is wrong with all that was to be seen, once all has ended, by this moment at the latest. `told` has what standard error has next to the start and the
        epochs, `other` how those duties ended that were not sent, `nobody` the lines of questions that no node answered, and `posts` how often those duties were
        posted that were not posted once. Where `lines` has what the output has, the run may have ended before the line or the post of a duty."""
        other, is_cut = dict(other), lines is not None
        came = self.end(by or self.genesis + (slots + 2) * SLOT + 60)
        wrong = [] if came == status else ['status %s in place of %s' % (came, status)]
        duties = ['%d %s %s %s' % (*duty, other.get(duty, 'sent')) for duty in sorted(self.due)]
        output = [line for _, line in self.out]
        wrong += amiss(output, lines, 'the output') if is_cut else self.lines_amiss(output, duties, list(nobody))
        wrong += self.posts_amiss(other, dict(posts), is_cut)
        wrong += ['standard error has what the table has not: ' + line for line in unfit(self.lines(), self.quiet)]
        wrong += ['standard error has the secret ' + secret for secret in self.hidden if any(secret in line for line in self.lines())]
        return wrong + amiss(self.lines(), self.started() + list(told) + ([] if is_cut else self.counted(duties, list(nobody), dict(keys))))

    def lines_amiss(self, output, duties, nobody):
        """What is wrong with the output: each duty has its line, slot after slot, blocks before votes, by key."""
        told, questions = ([line for line in output if line.endswith(' nodes none') == is_question] for is_question in (False, True))
        lack, more = collections.Counter(duties) - collections.Counter(told), collections.Counter(told) - collections.Counter(duties)
        wrong = [what + ', '.join(sorted(of.elements())) for what, of in (('no line ', lack), ('the line ', more)) if of]
        wrong += ['the lines are not in their order'] if not wrong and told != duties else []
        return wrong + (['%s in place of %s' % (questions, nobody)] if questions != nobody else [])

    def posts_amiss(self, other, posts, is_cut):
        """What is wrong with what was signed and posted: what is due and the service signed, within its slot, as often as it should be, the last time to a
        node that took it."""
        asked, self.handed = signer.take(), node.take()
        self.versions = {int(of['block']['slot']): of['version'] for r in asked if 'block' in (of := (r.body or {}).get('beacon_block', {}))}
        signed, done, wrong = given(asked), collections.Counter(), []
        self.accepted = set()
        for request, body in posted(self.handed):
            duty = next((duty_of(g) for g in signed if g.post == (request.target, body)), None)
            if duty is None:
                wrong.append('posted and not signed: %s' % json.dumps(body)[:200])
                continue
            done[duty] += 1
            self.accepted |= {duty} if request.status == 200 else set()
            begins = self.genesis + duty[0] * SLOT
            if not begins + (THIRD if duty[1] == 'vote' else 0) <= request.begun <= request.ended < begins + SLOT:
                wrong.append('posted %.1f s into its slot: %d %s %s' % (request.ended - begins, *duty))
        may_be = {duty: posts.get(duty, 1) for duty in self.due if other.get(duty, 'sent') == 'sent'}
        for duty in sorted({*may_be, *done}):
            if done[duty] != may_be.get(duty, 0) and not (is_cut and done[duty] < may_be.get(duty, 0)):
                wrong.append('posted %d times: %d %s %s' % (done[duty], *duty))
        said = {duty for duty in may_be if '%d %s %s sent' % duty in [line for _, line in self.out]}
        wrong += ['no node took %d %s %s' % duty for duty in sorted({*said, *done} - self.accepted)]
        more = {duty_of(g) for g in signed} - set(may_be)
        return wrong + ['signed: %d %s %s' % duty for duty in sorted(more)] + ['slashable: ' + pair for pair in slashable(asked)]

RUNNING = []

def duty_of(g):
    return g.slot, g.entry.split(' ')[0], key(g.number)

def brief(line):
    """A line with each key as its number."""
    return re.sub('0x[0-9a-f]{96}', lambda found: 'key %d' % (int(found[0], 16) - 1), line)

HEALTHY = r'stand-in/1'

def begin(name, connections=0, first=(), before=(), lanes=4, more=0, signing=None, options=(), says='does not answer', reads=True):
    """Starts the program in slot 0, or four seconds before it with these peers as its first nodes, which say at the start what they are: a block in each later slot
    and a vote of each key in one of them."""
    sessions(name, [{'op': 'activate', 'pubkey': key(n)} for n in range(KEYS)])
    genesis = int(time.time()) + (4 if first else -2)
    blocks = {slot: slot % KEYS for slot in range(1, slots + 1)}
    votes = {n: 1 + n * slots // KEYS for n in range(KEYS)}
    node.set(genesis_time=genesis, blocks=blocks, votes=votes)
    node.take(), signer.take()
    due = {(slot, 'block', key(n)) for slot, n in blocks.items()} | {(slot, 'vote', key(n)) for n, slot in votes.items()}
    nodes = [peer.url for peer in first] + [node.url]
    child = serve(name, slots + 1 + more, connections, lanes, nodes, before, signing, options)
    return Run(child, due, genesis, signing or signer.url, [(url, says) for url in nodes[:-1]] + [(node.url, HEALTHY)], reads=reads)

def wait_until(moment):
    time.sleep(max(0, moment - time.time()))

def once_listening(run):
    """Waits until the program listens, for a minute at most, without a connection to it."""
    until = time.time() + 60
    while time.time() < until and run.child.poll() is None:
        with open('/proc/net/tcp') as file:
            if '0100007F:%04X 00000000:0000 0A' % port in file.read():
                return
        time.sleep(0.05)

def once_begun(run):
    """Waits until slot 1 has begun, and the program listens."""
    wait_until(run.genesis + SLOT + 0.5)
    once_listening(run)
