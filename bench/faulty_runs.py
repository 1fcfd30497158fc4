"""What `faults.py` and `no_memory.py` use: the runs of the program in which something goes wrong, what is looked at afterwards, and the workers that
the rows are dealt to, each a process with a beacon node, a signing service and journals of its own."""
import shutil, threading
from stand_ins import *
from standard_error import amiss, unfit

LIMIT = 60
WORKERS = int(os.environ.get('WORKERS', os.cpu_count()))
OTHER = '0x' + 'bb' * 32
FORKED = ['--fork', '0x00000001:0x00000001:0']
METADATA = {'genesis_validators_root': GENESIS_ROOT, 'interchange_format_version': '5'}

# ---- requests

def attestation(slot, root):
    return {'slot': str(slot), 'index': '0', 'beacon_block_root': root, 'source': {'epoch': '0', 'root': ZERO}, 'target': {'epoch': str(slot // 32), 'root': ZERO}}

def vote(number, slot, root):
    return {'op': 'vote', 'pubkey': key(number), 'attestation': attestation(slot, root)}

def block(number, slot, root):
    return {'op': 'block', 'pubkey': key(number), 'header': {'slot': str(slot), 'proposer_index': '0', 'parent_root': ZERO, 'state_root': root, 'body_root': ZERO}}

def lines_of(asked):
    return ''.join(json.dumps(request) + '\n' for request in asked)

# ---- what a journal keeps of a message: an entry, which has its slot or epochs and its signing root

def joined(*pair):
    return hashlib.sha256(b''.join(pair)).digest()

def tree(leaves):
    """The root over those of a container's members, filled up with zeros to a power of two."""
    while len(leaves) & len(leaves) - 1:
        leaves = leaves + [bytes(32)]
    half = len(leaves) // 2
    return joined(tree(leaves[:half]), tree(leaves[half:])) if half else leaves[0]

def leaf(text):
    """That of a number, or of a root."""
    return bytes.fromhex(text[2:]) if text.startswith('0x') else int(text).to_bytes(32, 'little')

def leaves_of(container, *names):
    return [leaf(container[name]) for name in names]

def signing_root(root, kind):
    fork = joined(bytes.fromhex('00000001').ljust(32, b'\0'), leaf(GENESIS_ROOT))
    return '0x' + joined(root, bytes([kind]).ljust(4, b'\0') + fork[:28]).hex()

def vote_entry(data):
    ends = [tree(leaves_of(data[name], 'epoch', 'root')) for name in ('source', 'target')]
    root = signing_root(tree(leaves_of(data, 'slot', 'index', 'beacon_block_root') + ends), 1)
    return 'vote %s-%s %s' % (data['source']['epoch'], data['target']['epoch'], root)

def block_entry(header):
    return 'block %s %s' % (header['slot'], signing_root(tree(leaves_of(header, 'slot', 'proposer_index', 'parent_root', 'state_root', 'body_root')), 0))

def entry_of(asked):
    return vote_entry(asked['attestation']) if asked['op'] == 'vote' else block_entry(asked['header'])

def empty_list(depth):
    root = bytes(32)
    for _ in range(depth):
        root = joined(root, root)
    return joined(root, bytes(32))

def node_block(number, slot):
    """The entry of the block that the node makes for a key in epoch 0, all of whose lists are empty."""
    reveal = leaf(signature_of(key(number), signing_root(bytes(32), 2)))
    body = tree([tree([reveal[:32], reveal[32:64], reveal[64:]]), tree([bytes(32)] * 3), bytes(32)] + [empty_list(depth) for depth in (4, 1, 7, 4, 4)])
    return block_entry({**block_at({'blocks': {slot: number}}, slot, ''), 'body_root': '0x' + body.hex()})

def stands(number, state, *entries):
    """How a key stands that keeps these entries, as `states` has it."""
    return ', '.join(['%d %s %d %d' % (number, state, *(sum(entry.startswith(kind) for entry in entries) for kind in ('block', 'vote'))), *sorted(entries)])

# ---- what is asked for, and what comes of it

# A session that imports, signs and deletes, what each line is answered, and how the keys stand after each step of it; `STEPS` has how many of these
# steps the first few lines have taken.
REQUESTS = [{'op': 'import', 'keystores': [json.dumps({'pubkey': key(n)}) for n in (0, 1)], 'passwords': ['x', 'x']}, vote(0, 1, ZERO), block(1, 7, ZERO),
            {'op': 'delete', 'pubkeys': [key(1)]}, vote(0, 40, ZERO), {'op': 'delete', 'pubkeys': [key(0)]}]
USUAL = ['imported imported imported', 'signed', 'signed', 'deleted deleted', 'signed', 'deleted deleted']
LAST = vote(0, 40, ZERO), vote(0, 40, OTHER)
FIRST, MADE, LATER = (entry_of(asked) for asked in (REQUESTS[1], REQUESTS[2], LAST[0]))
STATES = [[], [stands(0, 'active')], [stands(0, 'active'), stands(1, 'active')], [stands(0, 'active', FIRST), stands(1, 'active')],
          [stands(0, 'active', FIRST), stands(1, 'active', MADE)], [stands(0, 'active', FIRST), stands(1, 'closed', MADE)],
          [stands(0, 'active', FIRST, LATER), stands(1, 'closed', MADE)], [stands(0, 'closed', FIRST, LATER), stands(1, 'closed', MADE)]]
STEPS = [0, 2, 3, 4, 5, 6, 7]

# What the last proposal is answered when it comes again, and what it is answered in its place with another root, by how its key stands: an active key
# signs for a target of which nothing is kept, and of one that is kept the same vote alone.
NEW, REPEATS = ['signed', 'signed'], ['signed', 'refused double_vote']
IS_CLOSED, IS_UNKNOWN = ['refused not_active'] * 2, ['refused unknown'] * 2
AGAIN = [IS_UNKNOWN, NEW, NEW, NEW, NEW, NEW, REPEATS, IS_CLOSED]

def without(number, cause):
    """What the session is answered where this call of the service fails so: it takes two keys in, signs twice, gives a key up, signs, and gives one up."""
    failed = 'error signer: ' + cause.replace('_', ' ')
    answers = list(USUAL)
    if number == 0:
        return ['imported %s imported' % failed, 'refused unknown', 'signed', 'deleted deleted', 'refused unknown', 'deleted not_found']
    if number == 1:
        return ['imported imported ' + failed, 'signed', 'refused unknown', 'deleted not_found', 'signed', 'deleted deleted']
    answers[number - 1] = 'deleted ' + failed if number in (4, 6) else 'unsigned ' + cause
    return answers

def states_without(number):
    """How the keys stand after the session in which this call of the service failed."""
    return {0: STATES[7][1:], 1: STATES[7][:1], 4: [STATES[7][0], STATES[4][1]], 6: STATES[6]}.get(number, STATES[7])

def again_without(number):
    """What its last proposal is answered then, with the same root and with another one."""
    return {0: IS_UNKNOWN, 6: REPEATS}.get(number, IS_CLOSED)

# What `serve` does in two slots.
SERVED = [(0, 'vote', 0), (1, 'block', 0), (1, 'vote', 1)]
SERVED_ENTRIES = {(0, 'vote'): vote_entry(data_at(0)), (1, 'block'): node_block(0, 1), (1, 'vote'): vote_entry(data_at(1))}
VOTED = {'op': 'vote', 'pubkey': key(1), 'attestation': data_at(1)}, vote(1, 1, OTHER)
SEEN = entry_of(VOTED[0])
VOTED_AGAIN = {stands(1, 'active'): [NEW], stands(1, 'active', SEEN): [REPEATS], stands(1, 'closed', SEEN): [IS_CLOSED]}

def due_lines(less=(), other=()):
    """The lines of the duties, but for some, and some with another result."""
    told = dict(other)
    return ['%d %s %s %s' % (slot, kind, key(n), told.get((slot, kind), 'sent')) for slot, kind, n in SERVED if (slot, kind) not in less]

def due_with(asked, slot, place):
    """The lines that are right where the connection of this request was cut in this slot. What the service failed to sign, a reveal
    among it, and what no node took is tried once more."""
    nobody, usual = ['%d nodes none' % slot], due_lines()
    if place == 'after':
        return [usual]
    if slot == 1 and ('/head/' in asked or '/duties/' in asked):
        return [usual[:1] + nobody + usual[1:]]
    if '/head/validators' in asked or '/duties/attester' in asked:
        return [nobody + due_lines(less=[(0, 'vote')])]
    if '/head/fork' in asked or '/duties/proposer' in asked:
        return [nobody + usual]
    if DATA in asked:
        return [due_lines(other={(slot, 'vote'): 'nodata none'})]
    if '/eth/v2/validator/blocks' in asked:
        return [due_lines(other={(1, 'block'): 'nodata none'})]
    return [usual]

# ---- runs

def words(name, command, url, *more):
    return [program, command, '--genesis', GENESIS_ROOT, '--journal', os.path.join(folder, name)] + (['--signer', url] if url else []) + list(more)

def serve_words(name, signer_url, node_url, slots, connections):
    return words(name, 'serve', signer_url, '--listen', '127.0.0.1:%d' % port, '--token', TOKEN, '--slots', str(slots), '--connections', str(connections), '--lanes', '1', '--quiet', node_url)

def run(line, text='', **more):
    """Runs the program over an input; gives its status, its lines and what standard error has."""
    done = subprocess.run(line, input=text, capture_output=True, text=True, timeout=LIMIT, **more)
    return done.returncode, done.stdout.splitlines(), done.stderr

def driven(name, **more):
    """The surroundings of a run over a clock that is driven (year_clock.c), so that no slot is waited for."""
    shim = os.path.join(folder, 'clock.so')
    if not os.path.exists(shim):
        subprocess.run(['gcc', '-shared', '-fPIC', '-O2', '-o', shim, os.path.join(os.path.dirname(os.path.abspath(__file__)), 'year_clock.c')], check=True)
    ahead = os.path.join(folder, name + '.clock')
    with open(ahead, 'wb') as file:
        file.write(bytes(8))
    loaded = ' '.join([shim] + ([more.pop('LD_PRELOAD')] if 'LD_PRELOAD' in more else []))
    return {**os.environ, **more, 'LD_PRELOAD': loaded, 'YEAR_CLOCK': ahead}

def begin_serving(name):
    """Makes two keys active, of which one is to vote in the first slot, and to make a block in the second, in which the other one votes. Gives genesis."""
    sessions(name, [{'op': 'activate', 'pubkey': key(n)} for n in (0, 1)])
    genesis = int(time.time()) + 3
    node.set(genesis_time=genesis, blocks={1: 0}, votes={0: 0, 1: 1})
    node.take(), signer.take()
    return genesis

def begin_deletion(name):
    begin_serving(name)
    run(words(name, 'session', signer.url, *FORKED), lines_of(VOTED[:1]))

VOTE_KEPT, VOTE_CLOSED = [stands(0, 'active'), stands(1, 'active', SEEN)], [stands(0, 'active'), stands(1, 'closed', SEEN)]

def delete_request():
    body = json.dumps({'pubkeys': [key(1)]}).encode()
    return b'DELETE /eth/v1/keystores HTTP/1.1\r\nHost: a\r\nAuthorization: Bearer %s\r\nContent-Length: %d\r\n\r\n%s' % (TOKEN.encode(), len(body), body)

def replied(asked, child, tries=1):
    """Sends a request to the Keymanager API once it listens, and gives the reply, as far as one comes; once more where none comes and the program goes
    on for two seconds, if there are as many tries."""
    came, until = b'', time.time() + LIMIT
    while child.poll() is None and time.time() < until:
        try:
            with socket.create_connection(('127.0.0.1', port), timeout=LIMIT) as link:
                link.sendall(asked)
                while piece := link.recv(65536):
                    came += piece
        except ConnectionRefusedError:
            time.sleep(0.02)
            continue
        except OSError:
            pass
        tries -= 1
        if came or not tries:
            return came
        try:
            child.wait(2)
        except subprocess.TimeoutExpired:
            pass
    return came

def answer_once(name, signer_url, node_url, asked, tries=1, **more):
    """Runs `serve` for one connection, over which this is asked; gives status, lines, reply and what standard error has."""
    child = subprocess.Popen(serve_words(name, signer_url, node_url, 0, 1), stdout=subprocess.PIPE, stderr=subprocess.PIPE, text=True, **more)
    reply = replied(asked, child, tries)
    try:
        out, told = child.communicate(timeout=LIMIT)
    except subprocess.TimeoutExpired:
        child.kill()
        out, told = child.communicate()
        return 'none', out.splitlines(), reply, told
    return child.returncode, out.splitlines(), reply, told

# ---- requests that peers read

def read_request(link):
    """A whole request, or what came of it where its end came first."""
    head, body = b'', b''
    while b'\r\n\r\n' not in head:
        piece = link.recv(65536)
        if not piece:
            return head
        head += piece
    head, _, body = head.partition(b'\r\n\r\n')
    length = re.search(rb'(?i)\r\ncontent-length: *(\d+)', head)
    while length and len(body) < int(length[1]):
        piece = link.recv(65536)
        if not piece:
            break
        body += piece
    return head + b'\r\n\r\n' + body

# ---- what is looked at afterwards

def short(answer):
    """An answer in a few words."""
    told = json.loads(answer)
    said = [told['answer']] + [told[name] for name in ('reason', 'cause') if name in told]
    return ' '.join(said + [entry['status'] + (' ' + entry['message'] if entry['message'] else '') for entry in told.get('data', []) if isinstance(entry, dict)])

def entries(reply):
    """What became of each key, by a reply of the Keymanager API."""
    told = json.loads(reply.partition(b'\r\n\r\n')[2] or b'{}')
    return [(e['status'] + ' ' + e['message']).strip() for e in told.get('data', [])]

def kept_in(text):
    """What an interchange file has of each key that it names, by the key's number; whatever stands there where it is none of this chain."""
    file = json.loads(text or 'null')
    if not file or file.get('metadata') != METADATA:
        return file
    return {int(of['pubkey'], 16) - 1: sorted(
        ['block %s %s' % (entry['slot'], entry.get('signing_root', '-')) for entry in of['signed_blocks']] +
        ['vote %s-%s %s' % (entry['source_epoch'], entry['target_epoch'], entry.get('signing_root', '-')) for entry in of['signed_attestations']]) for of in file['data']}

def file_of(reply):
    """What the file of a deletion's reply has; none where no file is there."""
    told = json.loads(reply.partition(b'\r\n\r\n')[2] or b'{}')
    return kept_in(told['slashing_protection']) if 'slashing_protection' in told else None

def states(name):
    """How each key stands when the journal is opened: its number, its state, how many blocks and votes `show` counts, each of these as an export has it,
    and the floors that are set."""
    status, lines, told = run(words(name, 'show', None))
    if status != 0:
        return ['status %d %s' % (status, told)]
    kept, found = kept_in(json.loads(run(words(name, 'session', None), lines_of([{'op': 'export'}]))[1][0])['file']), []
    for line in lines:
        pubkey, state, _, blocks, _, votes, *floors = line.split(' ')
        number = int(pubkey, 16) - 1
        found.append(', '.join(['%d %s %s %s' % (number, state, blocks, votes), *kept.pop(number, ['not exported']),
                                *('%s %s' % floor for floor in zip(floors[::2], floors[1::2]) if floor[1] != '-')]))
    return found + ['%d is exported alone' % number for number in kept]

def again(name, proposal):
    """What a session over a journal answers to a proposal, and what it asks of the service."""
    status, lines, told = run(words(name, 'session', signer.url, *FORKED), lines_of([proposal]))
    return lines if status == 0 else [json.dumps({'answer': 'status %d %s' % (status, told)})], signer.take()

# A message that the service signed: of which key, of which slot, its entry as the request has it, the signature, and what is posted of it, and where.
Given = collections.namedtuple('Given', 'number slot entry signature post')

def given(requests):
    """The messages that the service signed, but for reveals."""
    found = []
    for r in requests:
        if not r.target.startswith(SIGN) or r.body['type'] not in ('BLOCK_V2', 'ATTESTATION'):
            continue
        pubkey, root = r.target[len(SIGN):], r.body['signingRoot']
        number, signature = int(pubkey, 16) - 1, signature_of(pubkey, root)
        if r.body['type'] == 'BLOCK_V2':
            told = r.body['beacon_block'].get('block_header') or r.body['beacon_block']['block']
            entry, post = 'block %s %s' % (told['slot'], root), (BLOCKS, {'message': told, 'signature': signature})
        else:
            told, bits = r.body['attestation'], (1 << 2048 | 1 << number).to_bytes(257, 'little')
            entry = 'vote %s-%s %s' % (told['source']['epoch'], told['target']['epoch'], root)
            post = VOTES, {'aggregation_bits': '0x' + bits.hex(), 'data': told, 'signature': signature}
        found.append(Given(number, int(told['slot']), entry, signature, post))
    return found

def slashable(requests):
    """The pairs of different messages that the service signed of one key, of which one slashes the other."""
    blocks, votes, pairs = {}, {}, []
    for g in given(requests):
        kind, epochs, root = g.entry.split(' ')
        if kind == 'block':
            if blocks.setdefault((g.number, g.slot), root) != root:
                pairs.append('two blocks of slot %d' % g.slot)
        else:
            source, target = map(int, epochs.split('-'))
            for of, at, other in votes.setdefault(g.number, []):
                if other != root and (at == target or (of < source and target < at) or (source < of and at < target)):
                    pairs.append('votes (%d,%d) and (%d,%d)' % (of, at, source, target))
            votes[g.number].append((source, target, root))
    return pairs

class Row:
    """What came of a row, and what is wrong with it."""

    def __init__(self, name):
        self.name, self.told, self.wrong, self.tries = name, [], [], 1

    def tell(self, *told):
        self.told.extend(told)

    def want(self, what, came, *wanted):
        if came not in wanted:
            self.wrong.append('%s: %s in place of %s' % (what, came, ' or '.join(map(str, wanted))))

    def says(self, told, *wanted):
        """Standard error has a line of each of these patterns, and no other."""
        self.wrong.extend(amiss(told.splitlines(), [(line, 1, 1) for line in wanted]) + ['standard error has what the table has not: ' + line for line in unfit(told.splitlines(), True)])

    def ended(self, status, lines):
        self.tell('status %s' % status, 'last line %s' % (lines[-1][:72] if lines else 'none'))

    def opens(self, name, *wanted):
        self.opened = states(name)
        self.tell('opens to ' + ('; '.join(self.opened) or 'no key'))
        self.want('opens to', self.opened, *wanted)
        return self.opened

    def answers_fit(self, requests, lines, asked):
        """Each signature that was answered is the one that the service gave for that message, and the file of each deletion has what was granted
        and signed for the keys that are closed, and no other key."""
        signed, granted = given(asked), {}
        for request, line in zip(requests, lines):
            told = json.loads(line) if line.startswith('{') else {'answer': line}
            if request['op'] in ('vote', 'block') and told['answer'] in ('signed', 'unsigned'):
                number, entry = int(request['pubkey'], 16) - 1, entry_of(request)
                granted.setdefault(number, set()).add(entry)
                if told['answer'] == 'signed':
                    gave = [(entry.split(' ')[2], g.signature) for g in signed if (g.number, g.entry) == (number, entry)]
                    self.want('signed', (told['signing_root'], told['signature']), *gave)
            if told['answer'] == 'deleted':
                closed = [int(pubkey, 16) - 1 for pubkey, entry in zip(request['pubkeys'], told['data']) if entry['status'] in ('deleted', 'not_active')]
                self.want('file of the deletion', kept_in(told['slashing_protection']),
                          {number: sorted(granted.get(number, set()) | {g.entry for g in signed if g.number == number}) for number in closed})

    def reply_fits(self, reply):
        """The file of the reply to a deletion of a key that voted once has that vote where the key is closed, and no key where it is not."""
        said = entries(reply)
        self.want('file of the deletion', file_of(reply), {1: [SEEN]} if said in (['deleted'], ['not_active']) else {} if said else None)

    def voted_again(self, name, asked=()):
        self.proposed_again(name, VOTED, *VOTED_AGAIN.get(self.opened[-1] if self.opened else '', []), asked=asked)

    def proposed_again(self, name, proposals, *wanted, asked=()):
        """What the service signed is kept, whatever ended the run, since a grant is on the disk before its signature is asked for. Then the last proposal
        comes again, and, over a copy of the journal from before that, one with another root. `asked` is what was taken of the service's requests
        before."""
        asked, copy = [*asked, *signer.take()], name + 'other'
        kept = [(int(line.split(' ')[0]), entry) for line in self.opened if line[0].isdigit() for entry in line.split(', ')[1:]]
        self.want('signed and not kept', [(g.number, g.entry) for g in given(asked) if (g.number, g.entry) not in kept], [])
        for end in ('.a', '.b'):
            shutil.copyfile(os.path.join(folder, name + end), os.path.join(folder, copy + end))
        told = []
        for journal, proposal in ((copy, proposals[1]), (name, proposals[0])):
            lines, requests = again(journal, proposal)
            told.insert(0, short(lines[0]))
            self.answers_fit([proposal], lines, requests)
            self.want('slashable at the service', slashable([*asked, *requests]), [])
        for end in ('.a', '.b'):
            os.remove(os.path.join(folder, copy + end))
        self.tell('the same ' + told[0], 'another one ' + told[1])
        self.want('again', told, *wanted)

    def line(self):
        told = '; '.join(self.told)
        line = 'FAIL %s: %s (%s)' % (self.name, '; '.join(self.wrong), told) if self.wrong else 'pass %s: %s' % (self.name, told)
        return re.sub(r'\b(0x[0-9a-f]{8})[0-9a-f]{56}\b', r'\1', line)

def posts_fit(row, lines, of_node, of_service, may_be_unsaid=False):
    """What was posted is what the service signed, with its signature. Each duty that a line says is sent was posted; what was posted and has no such line
    is so where the run ended before its lines."""
    posts, signed = [(r.target, body) for r, body in posted(of_node)], given(of_service)
    unsigned = [(target, body.get('data') or body.get('message')) for target, body in posts if (target, body) not in [g.post for g in signed]]
    row.want('posted and not signed', ['%s, slot %s' % (target, told['slot']) for target, told in unsigned], [])
    for slot, kind, n in SERVED:
        is_said = '%d %s %s sent' % (slot, kind, key(n)) in lines
        there = any((g.number, g.slot) == (n, slot) and g.entry.startswith(kind) and g.post in posts for g in signed)
        if is_said or not may_be_unsaid:
            row.want('%s of slot %d posted' % (kind, slot), there, is_said)

def served_states(lines, may_be_more=False):
    """How the keys stand by these lines of duties; and by each further duty that may have been done and not told, of slot 1 only after the line of slot 0."""
    def kept(done):
        of = {number: [SERVED_ENTRIES[slot, kind] for slot, kind, n in SERVED if n == number and (slot, kind) in done] for number in (0, 1)}
        return [stands(number, 'active', *of[number]) for number in (0, 1)]
    told = {(slot, kind): line.split(' ')[3] for slot, kind, n in SERVED for line in lines if line.startswith('%d %s %s ' % (slot, kind, key(n)))}
    done = [duty for duty in told if told[duty] in ('sent', 'unsigned', 'unposted')]
    found = [kept(done)]
    for slot, kind, _ in SERVED:
        if may_be_more and (slot, kind) not in told and (slot == 0 or (0, 'vote') in told):
            done = done + [(slot, kind)]
            found.append(kept(done))
    return found

# ---- the rows are dealt

def deal(file, measure, rows_of, shows_all):
    """Runs all rows, in as many workers as there are processors; prints those that are wrong, or all, and their number. `measure` gives what `rows_of`
    is given; a row is run by its name for files."""
    if len(sys.argv) > 3 and sys.argv[2] == 'worker':
        return work(rows_of(json.loads(sys.argv[5])), int(sys.argv[3]), int(sys.argv[4]))
    begun, counts, anew, ends = time.time(), {}, [], []
    measured = json.dumps(measure())
    workers = [subprocess.Popen([sys.executable, '-B', file, sys.argv[1], 'worker', str(n), str(WORKERS), measured], stdout=subprocess.PIPE, text=True) for n in range(WORKERS)]
    lock = threading.Lock()

    def gather(worker):
        for line in worker.stdout:
            with lock:
                if line.startswith('tried again'):
                    anew.append(line)
                elif line.startswith('count '):
                    _, name, how = line.strip().split('\t')
                    counts.setdefault(name, {}).setdefault(how, 0)
                    counts[name][how] += 1
                elif shows_all or line.startswith('FAIL'):
                    print(line, end='', flush=True)

    gathering = [threading.Thread(target=gather, args=(worker,)) for worker in workers]
    for thread in gathering:
        thread.start()
    for thread in gathering:
        thread.join()
    ends = [worker.wait() for worker in workers]
    for name in sorted(counts):
        print('%s: %s' % (name, ', '.join('%s %d' % (how, counts[name][how]) for how in sorted(counts[name]))))
    wrong = sum(how.get('wrong', 0) for how in counts.values())
    done, all_rows = sum(sum(how.values()) for how in counts.values()), len(rows_of(json.loads(measured)))
    print('rows %d, wrong %d, tried again %d, in %d s' % (done, wrong, len(anew), time.time() - begun) + ('' if done == all_rows else ', of %d rows' % all_rows))
    shutil.rmtree(folder)
    sys.exit(1 if wrong or any(ends) or done != all_rows else 0)

def work(rows, place, workers):
    """Does the rows of a worker. Each is a group, under which it is counted, and what runs it."""
    for at in range(place, len(rows), workers):
        group, row_of = rows[at]
        signer.take(), node.take()
        try:
            row = row_of('row%d' % at)
        except (OSError, ValueError, LookupError, subprocess.SubprocessError) as fault:
            row = Row('%s, row %d' % (group, at))
            row.wrong.append(repr(fault))
        print('tried again\n' * (row.tries > 1) + row.line())
        print('count \t%s\t%s' % (group, 'wrong' if row.wrong else next((t for t in row.told if t.startswith('status')), 'right')), flush=True)
        for end in ('.a', '.b', '.clock'):
            try:
                os.remove(os.path.join(folder, 'row%d%s' % (at, end)))
            except OSError:
                pass
    shutil.rmtree(folder)
