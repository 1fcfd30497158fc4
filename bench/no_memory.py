"""The rows of `no_memory.sh`: the built program, to which one allocation is refused, or one and all after it. A row knows what the run is answered where
nothing is refused, and which calls of the signing service and of the node it makes; where one of these is missing, and standard error says that there was
no memory to connect, the answers have to be those of a call that fails there."""
from faulty_runs import *

# A row that is wrong and took that many seconds is run anew, twice at most: on a busy machine `serve` may come too late for a slot.
LATE = 6
STEP = int(os.environ.get('STEP', '1'))
STEP_ON = int(os.environ.get('STEP_ON', STEP))
FILE = {'data': [{'pubkey': key(0), 'signed_attestations': [], 'signed_blocks': [{'slot': '7'}]}], 'metadata': METADATA}
COMPACTS = [{'op': 'activate', 'pubkey': key(0)}, {'op': 'compact'}, vote(0, 1, ZERO), {'op': 'compact'}, vote(0, 40, ZERO)]
COMPACTED = [[], STATES[1], STATES[1], [stands(0, 'active', FIRST)], [stands(0, 'active', FIRST)], [stands(0, 'active', FIRST, LATER)]]
COMPACTED_AGAIN = [IS_UNKNOWN, NEW, NEW, NEW, NEW, REPEATS]
COMPACT_ANSWERS = ['active', 'compacted', 'signed', 'compacted', 'signed']
SECRET, PASSWORD = 'a-secret-of-a-keystore', 'a-password-of-a-keystore'
SECRETS = [{'op': 'import', 'keystores': [json.dumps({'pubkey': key(0), 'crypto': SECRET})], 'passwords': [PASSWORD]}]

# ---- what is refused, and what comes of it

class Lack:
    """Which allocation is refused to a run, none where the number is 0; and what the run of this script asks of service and node where none is."""

    def __init__(self, script, number, goes_on, usual):
        self.script, self.number, self.goes_on, self.usual = script, number, goes_on, usual

    def row(self):
        return Row('%s, allocation %d%s' % (self.script, self.number, ' and all after it' if self.goes_on else ''))

    def surroundings(self, name):
        shim = os.path.join(folder, 'no_memory.so')
        if not os.path.exists(shim):
            subprocess.run(['gcc', '-shared', '-fPIC', '-O2', '-o', shim, os.path.join(os.path.dirname(os.path.abspath(__file__)), 'no_memory.c')], check=True)
        with open(count_of(name), 'wb') as file:
            file.write(bytes(8))
        return {'LD_PRELOAD': shim, 'NO_MEMORY': str(self.number), 'NO_MEMORY_COUNT': count_of(name), **({'NO_MEMORY_ON': '1'} if self.goes_on else {})}

    def was_refused(self, name):
        """Whether the run came to this allocation."""
        return 0 < self.number <= counted(name)

def count_of(name):
    return os.path.join(folder, name + '.count')

def counted(name):
    with open(count_of(name), 'rb') as file:
        return int.from_bytes(file.read(), sys.byteorder)

def unconnected(row, told, *others):
    """The services to which no connection was made for want of memory, by the lines of standard error, which has no more than each of these others once."""
    places = {'127.0.0.1:%d: out of memory' % at.port: who for who, at in (('service', signer), ('node', node))}
    lines = told.splitlines()
    more = [line for line in lines if line not in places]
    row.want('standard error', more, [], *([line] for line in others))
    return [places[line] for line in lines if line in places]

def plain(asked):
    """Requests as they can be compared."""
    return [[r.method, r.target, r.body] for r in asked]

def missing(usual, came):
    """The places that a request may have among the usual ones which was not made: the first at which something else came, and those before it of the
    same request. The last one may have been made once more."""
    at = next((n for n, asked in enumerate(usual) if came[n:n + 1] != [asked]), len(usual) - 1)
    return [n for n in range(at + 1) if usual[n:at] == usual[n + 1:at + 1]]

def ended_so(row, lack, name, status, lines, usual, faulty, failed, may_be_whole=False):
    """It ended as if nothing had been refused; or, where something was, with status 8 and a front of the answers; or, where one connection was
    not made, as `faulty` says, a status and lines each. With status 8 the answer at hand is missing, unless they may be whole."""
    row.ended(status, lines)
    row.tell('no connection to ' + ', '.join(failed) if failed else 'connected')
    if not lack.was_refused(name):
        row.want('connections that failed', failed, [])
        row.want('status and lines', (status, lines), (0, usual))
    elif status == 8:
        fronts = [usual] + [of for _, of in faulty]
        row.want('lines', lines, *(of[:len(lines)] for of in fronts if len(lines) < len(of) + may_be_whole))
    elif failed:
        row.want('connections that failed', len(failed), 1)
        row.want('status and lines', (status, lines), *faulty)
    else:
        row.want('status and lines', (status, lines), (0, usual))

# ---- the scripts

def session(name, lack):
    row = lack.row()
    status, lines, told = run(words(name, 'session', signer.url, *FORKED), lines_of(REQUESTS), env={**os.environ, **lack.surroundings(name)})
    came, asked = [short(line) for line in lines], signer.take()
    failed = unconnected(row, told)
    calls = missing(lack.usual['service'], plain(asked)) if failed else []
    ended_so(row, lack, name, status, came, USUAL, [(0, without(call, 'fault')) for call in calls], failed)
    row.answers_fit(REQUESTS, lines, asked)
    if status == 0 and failed:
        row.opens(name, *(states_without(call) for call in calls))
        row.proposed_again(name, LAST, *(again_without(call) for call in calls), asked=asked)
    else:
        opened = row.opens(name, *STATES[STEPS[min(len(came), 6)]:STEPS[min(len(came) + (status != 0), 6)] + 1])
        row.proposed_again(name, LAST, *([AGAIN[STATES.index(opened)]] if opened in STATES else []), asked=asked)
    return row, {'service': asked}

def compaction(name, lack):
    row = lack.row()
    status, lines, told = run(words(name, 'session', signer.url, *FORKED), lines_of(COMPACTS), env={**os.environ, **lack.surroundings(name)})
    came, asked = [short(line) for line in lines], signer.take()
    failed = unconnected(row, told)
    calls = missing(lack.usual['service'], plain(asked)) if failed else []
    faulty = [(0, ['unsigned fault' if at == 2 + 2 * call else answer for at, answer in enumerate(COMPACT_ANSWERS)]) for call in calls]
    ended_so(row, lack, name, status, came, COMPACT_ANSWERS, faulty, failed)
    opened = row.opens(name, *COMPACTED[len(came):len(came) + 1 + (status != 0)])
    row.answers_fit(COMPACTS, lines, asked)
    row.proposed_again(name, LAST, *([COMPACTED_AGAIN[COMPACTED.index(opened)]] if opened in COMPACTED else []), asked=asked)
    return row, {'service': asked}

def refusal(name, lack):
    """A service refuses to take a key in, and answers with what it was sent. No report has the keystore or the password, whatever memory is wanted."""
    row = lack.row()
    signer.set(takes_no_key=True)
    try:
        status, lines, told = run(words(name, 'session', signer.url), lines_of(SECRETS), env={**os.environ, **lack.surroundings(name)})
    finally:
        signer.set(takes_no_key=False)
    came, asked = [short(line) for line in lines], signer.take()
    failed = unconnected(row, told, *('127.0.0.1:%d: %s: refused' % (signer.port, call) for call in ('POST /eth/v1/keystores', '')))
    row.want('secrets on standard error', [secret for secret in (SECRET, PASSWORD) if secret in told], [])
    if not lack.was_refused(name):
        row.want('standard error', told, '127.0.0.1:%d: POST /eth/v1/keystores: refused\n' % signer.port)
    ended_so(row, lack, name, status, came, ['imported error signer: status 400'], [(0, ['imported error signer: fault'])] if failed else [], failed)
    row.opens(name, [])
    row.proposed_again(name, LAST, IS_UNKNOWN, asked=asked)
    return row, {'service': asked}

def merge(name, lack):
    row = lack.row()
    status, lines, told = run(words(name, 'merge', None), json.dumps(FILE), env={**os.environ, **lack.surroundings(name)})
    ended_so(row, lack, name, status, lines, ['merged 1'], [], unconnected(row, told))
    merged = [stands(0, 'known', 'block 7 -') + ', floor_slot 7']
    row.opens(name, merged, *([] if lines else [[]]))
    row.want('the same merge again', run(words(name, 'merge', None), json.dumps(FILE))[:2], (0, ['merged 1']))
    row.opens(name, merged)
    return row, {}

def show(name, lack):
    row = lack.row()
    sessions(name, [{'op': 'activate', 'pubkey': key(n)} for n in (0, 1)])
    usual = run(words(name, 'show', None))[1]
    row.want('the usual lines', len(usual), 2)
    status, lines, told = run(words(name, 'show', None), env={**os.environ, **lack.surroundings(name)})
    ended_so(row, lack, name, status, lines, usual, [], unconnected(row, told))
    row.opens(name, STATES[2])
    return row, {}

def no_node(call, asked):
    """How `serve` ends where this call, the question for the genesis or for the fork, fails: nothing is asked after it."""
    return [(10, ['validator: no node: fault'])] if len(asked) == call else []

def node_fails(usual, call, asked):
    """How `serve` ends where this call of the node fails. The first one is made for a report alone."""
    if call in (1, 2):
        return no_node(call, asked)
    told = usual[call][1].split('?')[0]
    syncing = [at for at, of in enumerate(usual) if '/node/syncing' in of[1]]
    return [(0, lines) for lines in due_with(told, 1 if len(syncing) > 2 and call >= syncing[2] else 0, 'unasked')]

def serve_slots(name, lack):
    row = lack.row()
    begin_serving(name)
    status, lines, told = run(serve_words(name, signer.url, node.url, 2, 0), env=driven(name, **lack.surroundings(name)))
    of_service, of_node = signer.take(), node.take()
    failed, faulty = unconnected(row, told), []
    if 'service' in failed:
        faulty.append((0, due_lines()))
    if 'node' in failed:
        came = plain(of_node)
        faulty.extend(end for call in missing(lack.usual['node'], came) for end in node_fails(lack.usual['node'], call, came))
    ended_so(row, lack, name, status, lines, due_lines(), faulty, failed, True)
    posts_fit(row, lines, of_node, of_service, status == 8)
    row.opens(name, *([STATES[2]] if status == 10 else served_states(lines, status == 8)))
    row.voted_again(name, of_service)
    return row, {'service': of_service, 'node': of_node}

def deletion(name, lack):
    """Where there is no memory for a connection that comes in, it is dropped without a reply, and nothing was done: the run ends with it, or serves the
    next one, and waits for that where there is memory for none any more. A connection that is served gets its reply, also where the duties end
    meanwhile for want of memory (status 8): so without one nothing was done, under every status. With 503 the first few steps are done."""
    row = lack.row()
    begin_deletion(name)
    first = signer.take()
    node.take()
    status, lines, reply, told = answer_once(name, signer.url, node.url, delete_request(), 2, env={**os.environ, **lack.surroundings(name)})
    of_service, of_node = signer.take(), node.take()
    said = (int(reply.split(b' ')[1]), entries(reply)) if reply else (0, [])
    row.tell('reply %d %s' % (said[0], ' '.join(said[1])))
    done, undone, lacks, none = (200, ['deleted']), (200, ['error signer: fault']), (503, []), (0, [])
    failed, faulty = unconnected(row, told, *reports_of(said, undone, lacks)), []
    if 'service' in failed:
        faulty.append((0, []))
    if 'node' in failed:
        came = plain(of_node)
        for call in missing(lack.usual['node'], came):
            faulty.extend(no_node(call, came) if call in (1, 2) else [(0, [])])
    if status == 'none' and lack.goes_on and not reply:
        row.ended('none, since it waits for a connection that it has memory for', lines)
        row.want('lines and connections that failed', (lines, failed), ([], []))
    else:
        ended_so(row, lack, name, status, lines, [], faulty, failed, True)
    if not lack.was_refused(name):
        replies = [done]
    elif status == 8:
        replies = [none, done] + [lacks] * lack.goes_on
    elif status in (10, 'none'):
        replies = [none]
    else:
        # (where all after it are refused, the reply that says so may want memory too)
        replies = [undone] + [lacks] * lack.goes_on if 'service' in failed else [done] if failed else [done, lacks, none]
    row.want('reply', said, *replies)
    row.want('text', reply.partition(b'\r\n\r\n')[2] if said == lacks else b'', b'{"message":"out of memory"}' if said == lacks else b'')
    row.reply_fits(reply)
    given_up = [r.body for r in of_service if (r.method, r.target) == ('DELETE', '/eth/v1/keystores')]
    row.want('asked of the service', (len(of_service), given_up), *([] if said == done else [(0, [])]), *([(1, [{'pubkeys': [key(1)]}])] if said in (done, lacks) else []))
    opened = row.opens(name, *([VOTE_KEPT] if said != done else []), *([VOTE_CLOSED] if said == done or said == lacks and given_up else []))
    once_more = answer_once(name, signer.url, node.url, delete_request())
    row.want('the same deletion again', (once_more[0], entries(once_more[2])), (0, ['not_active' if opened == VOTE_CLOSED else 'deleted']))
    row.reply_fits(once_more[2])
    row.opens(name, VOTE_CLOSED)
    row.voted_again(name, first + of_service)
    return row, {'service': of_service, 'node': of_node}

def reports_of(said, undone, lacks):
    """What is reported of such a reply, one of these; where memory was wanted for the request, its call as far as it was read, and the
    reply's status alone; where it was wanted for the reply's body, nothing of that."""
    if said == undone:
        return ['Keymanager API: %s: error: signer: fault' % key(1)]
    call = 'DELETE /eth/v1/keystores'
    return ['Keymanager API: %s: 503%s' % (call[:count], body) for count in range(len(call) + 1) for body in ('', ' ', ' {"message":"out of memory"}')] if said == lacks else []

ALL = {'session': session, 'refusal': refusal, 'compaction': compaction, 'merge': merge, 'show': show, 'serve': serve_slots, 'DELETE': deletion}
SCRIPTS = {name: ALL[name] for name in os.environ.get('SCRIPTS', ' '.join(ALL)).split()}

# ---- all rows

def measure():
    """How many allocations each script makes where none is refused, and what it asks of service and node."""
    found = {}
    for name, script in SCRIPTS.items():
        row, asked = script('measured ' + name, Lack(name, 0, False, {}))
        wanted(row.line(), not row.wrong)
        count = counted('measured ' + name)
        wanted('%s: no allocation came, since the program has an allocator of its own' % name, count > 0)
        found[name] = (count, {who: plain(of) for who, of in asked.items()})
    return found

def rows_of(found):
    rows = []
    def add(script, number, goes_on):
        def row_of(name):
            for tries in range(1, 4):
                begun = time.time()
                row, _ = SCRIPTS[script](name, Lack(script, number, goes_on, found[script][1]))
                row.tries = tries
                if not row.wrong or time.time() - begun < LATE:
                    break
                for end in ('.a', '.b'):
                    os.remove(os.path.join(folder, name + end))
            os.remove(count_of(name))
            return row
        rows.append(('%s, %s' % (script, 'an allocation and all after it' if goes_on else 'one allocation'), row_of))
    for script, (count, _) in found.items():
        for goes_on in (False, True):
            for number in range(1, count + 2, STEP_ON if goes_on else STEP):
                add(script, number, goes_on)
    return rows

deal(__file__, measure, rows_of, False)
