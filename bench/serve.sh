#!/usr/bin/env bash
# The built program as a validator client, over TCP: a beacon node and a signing service (stand_ins.py), and `curl` as the operator. It needs gcc. First
# keys are taken in by the Keymanager API. Then duties are done for ten slots: each that is due must be posted once, with the service's
# signature, and the keys are listed meanwhile. Then one key is deleted with its file, and taken in by a second journal, which must refuse
# what was signed here. A second process over the same journal must be refused, too. Last, how long the votes of a slot take, from its third
# to the last post, for each number of votes: in one lane with a service that answers at once, and in 1, 4 and 16 lanes with one that takes
# 20 ms. All votes are of one committee, so one question is asked for what they are to vote. Next to it stand the best that this many lanes allow,
# which is that question and then the votes of the fullest lane, each with the servers' own time for its two requests (from the accepted
# connection to the answer, the mean of the run), and a plain client: it asks the question, and then a process for each lane sends as many
# requests of the same kinds over plain sockets, one after another. Votes that were begun in their slot are cast to the last, past its
# end too, 8 s after its third: the last column is how many were posted before. Then 100 votes of a slot are cast with --aggregate, of whose
# validators about a sixteenth are chosen, in 1, 4 and 16 lanes with a service that takes 10, 15 or 20 ms: from two thirds of the slot to the last
# aggregate, next to the best that this many lanes allow, which is the aggregates of the fullest lane with the servers' time for their three
# requests, and what the question, the votes and the choices of the fullest lane take, by the servers' time for them, over the 4 seconds before;
# and next to a plain client. Node, service and plain client are here in C (fast_peers.c, fast_client.c), so that they take little time themselves. Each
# row is the middle of three runs, by its ratio to the best, and ends with the least and the greatest ratio. Each validator that is chosen must post once,
# with its proof, the votes' data and a signature of the service, and no other one. It takes about a quarter of an hour, and eight minutes for the
# aggregates alone.
# Usage: bench/serve.sh [VOTES ..|aggregates]     (10 100 1000 where none is given; PROGRAM=PATH for another program)
set -eu
cd "$(dirname "$0")/.."
program=${PROGRAM:-crates/validator/out/validator}
[ -x "$program" ] || { echo "bench/serve.sh: $program is not there: run 'rt run -- --version' in crates/validator first" >&2; exit 1; }
for tool in curl gcc; do command -v "$tool" >/dev/null || { echo "bench/serve.sh: $tool is wanted" >&2; exit 1; }; done
[ $# -gt 0 ] || set -- 10 100 1000
built=$(mktemp -d)
trap 'rm -rf "$built"' EXIT
gcc -O2 -Wall -Wextra -pthread -o "$built/peers" bench/fast_peers.c bench/fast_answers.c bench/fast_signature.c
gcc -O2 -Wall -Wextra -pthread -o "$built/client" bench/fast_client.c
env PYTHONPATH=bench python3 -B - "$program" "$built" "$@" <<'PY'
import collections, json, math, multiprocessing, os, shutil, socket, subprocess, sys, time
from stand_ins import *
from fast_peers import fast_client, fast_servers

built = sys.argv[2]
ONLY_AGGREGATES = sys.argv[3:] == ['aggregates']
counts = [] if ONLY_AGGREGATES else [int(n) for n in sys.argv[3:]]

def curl(method, body=None):
    words = ['curl', '-sS', '--retry', '200', '--retry-delay', '1', '--retry-connrefused', '-X', method, '-H', 'Authorization: Bearer ' + TOKEN, 'http://127.0.0.1:%d/eth/v1/keystores' % port]
    told = subprocess.run(words + (['-H', 'Content-Type: application/json', '--data', '@-'] if body else []), input=json.dumps(body) if body else None, capture_output=True, text=True)
    wanted('curl: ' + told.stderr, told.returncode == 0)
    return json.loads(told.stdout)

def keystores(numbers):
    return [json.dumps({'pubkey': key(n)[2:]}) for n in numbers]

def taken_in_done_and_deleted():
    # keys are taken in
    node.set(genesis_time=0, blocks={}, votes={})
    child = serve('a', 0, 1)
    told = curl('POST', {'keystores': keystores(range(3)), 'passwords': ['p'] * 3})
    wanted('keys are not taken in: %s' % told, [row['status'] for row in told['data']] == ['imported'] * 3)
    ended(child)

    # ten slots: a block in each, by the three keys in turn, and a vote of each key
    votes = {0: 2, 1: 5, 2: 8}
    node.set(genesis_time=int(time.time()) - 14, blocks={slot: slot % 3 for slot in range(1, 11)}, votes=votes)
    child = serve('a', 10, 3)
    time.sleep(3)
    second = subprocess.run([program, 'show', '--genesis', GENESIS_ROOT, '--journal', os.path.join(folder, 'a')], capture_output=True, text=True)
    wanted('a second process: %s' % second, second.returncode == 5 and 'already locked' in second.stderr and second.stdout == 'validator: disk fault\n')
    begun = time.time()
    listed = curl('GET')
    wanted('keys: %s' % listed, [row['validating_pubkey'] for row in listed['data']] == [key(n) for n in range(3)])
    wanted('the keys are listed after %.1f s only' % (time.time() - begun), time.time() - begun < 5)
    posts = []
    while len(posts) < 13 and time.time() < begun + 11 * SLOT:
        time.sleep(1)
        posts += posted(node.take())
    deleted = curl('DELETE', {'pubkeys': [key(1)]})
    wanted('deletion: %s' % deleted, [row['status'] for row in deleted['data']] == ['deleted'])
    again = curl('POST', {'keystores': keystores([0]), 'passwords': ['p']})
    wanted('the same key again: %s' % again, [row['status'] for row in again['data']] == ['duplicate'])
    lines, _ = ended(child)
    told = []
    for slot in range(1, 11):
        told.append('%d block %s sent\n' % (slot, key(slot % 3)))
        told += ['%d vote %s sent\n' % (slot, key(n)) for n, at in sorted(votes.items()) if at == slot]
    wanted('lines:\n' + lines, lines == ''.join(told))

    # each duty was posted once, with the signature that the service gave for it
    posts = [(r.target, body) for r, body in posts + posted(node.take())]
    given = collections.Counter(signature for signature, _, _ in signed(signer.take()))
    wanted('posts and signatures differ', given == collections.Counter(body['signature'] for _, body in posts))
    wanted('blocks differ', sorted(int(b['message']['slot']) for t, b in posts if t == BLOCKS) == list(range(1, 11)))
    wanted('votes differ', sorted(int(b['data']['slot']) for t, b in posts if t == VOTES) == sorted(votes.values()))
    print('ten slots: %d blocks and %d votes, each posted once with its signature' % (10, 3), flush=True)

    # the deleted key's file at a second journal
    child = serve('b', 0, 1)
    told = curl('POST', {'keystores': keystores([1]), 'passwords': ['p'], 'slashing_protection': deleted['slashing_protection']})
    wanted('the file: %s' % told, [row['status'] for row in told['data']] == ['imported'])
    ended(child)
    slots = [slot for slot in range(1, 11) if slot % 3 == 1]
    refused = sessions('b', [{'op': 'block', 'pubkey': key(1), 'slot': str(slot), 'signing_root': '0x' + 'bb' * 32} for slot in slots]
                       + [{'op': 'vote', 'pubkey': key(1), 'source_epoch': '0', 'target_epoch': '0', 'signing_root': '0x' + 'bb' * 32}])
    wanted('a second journal signs: %s' % refused, all(answer['answer'] == 'refused' for answer in refused))
    print('the second journal refuses each block and vote of the deleted key: %s' % ', '.join(answer['reason'] for answer in refused), flush=True)

# ---- how long votes take

def voted(journal, count, lanes):
    """The seconds from the third of a slot to each post, in order, and the servers' own time for the question, and for a vote: the mean."""
    child, third = vote_once(journal, count, lanes)
    lines, _ = ended(child)
    wanted('lines:\n' + lines[:500], lines == ''.join('1 vote %s sent\n' % key(n) for n in range(count)))
    requests = node.take() + signer.take()
    took = [[r.ended - r.begun for r in requests if r.target.startswith(path)] for path in (DATA, SIGN, VOTES)]
    wanted('requests of each kind: %s' % [len(of) for of in took], [len(of) for of in took] == [1, count, count])
    return sorted(r.ended - third for r, _ in posted(requests)), sum(took[0]), sum(map(sum, took[1:])) / count

def request(method, target, body):
    text = json.dumps(body).encode() if body is not None else b''
    return b'%s %s HTTP/1.1\r\nHost: a\r\nContent-Length: %d\r\nConnection: close\r\n\r\n' % (method.encode(), target.encode(), len(text)) + text

def round_trip(server, method, target, body):
    with socket.create_connection(('127.0.0.1', server.port)) as link:
        link.setsockopt(socket.IPPROTO_TCP, socket.TCP_NODELAY, 1)
        link.sendall(request(method, target, body))
        while link.recv(65536):
            pass

vote = {'aggregation_bits': '0x' + '00' * 256 + '01', 'signature': signature_of(key(0), ZERO), 'data': data_at(1)}
asked = {'type': 'ATTESTATION', 'fork_info': {'fork': FORK, 'genesis_validators_root': GENESIS_ROOT}, 'signingRoot': ZERO, 'attestation': vote['data']}

def trips(count, begin):
    time.sleep(begin - time.time())
    for _ in range(count):
        round_trip(signer, 'POST', SIGN + key(0), asked)
        round_trip(node, 'POST', VOTES, [vote])

def asks_once():
    """The seconds of the question for what the votes' committee is to vote, as a plain client asks it."""
    begun = time.time()
    round_trip(node, 'GET', DATA + '?slot=1&committee_index=0', None)
    return time.time() - begun

def plain(count, lanes):
    """The seconds of a plain client: a process for each lane, which sends the requests of its votes one after another."""
    begin = time.time() + 1
    processes = [multiprocessing.get_context('fork').Process(target=trips, args=(len(range(lane, count, lanes)), begin)) for lane in range(min(count, lanes))]
    for process in processes:
        process.start()
    for process in processes:
        process.join()
    return max(r.ended for r in node.take() if r.target == VOTES) - begin

def votes_table(counts):
    print('ms a signature; lanes; votes a slot; seconds from the third of the slot to the last post; best; ratio; plain client; ratio; posts in the slot', flush=True)
    for delay, lanes in (0, 1), (20, 1), (20, 4), (20, 16):
        signer.set(delay=delay / 1000)
        for count in counts:
            at, question, own = voted('v%d-%d-%d' % (delay, lanes, count), count, lanes)
            best, beside, in_slot = question + math.ceil(count / lanes) * own, asks_once() + plain(count, lanes), sum(t < SLOT - THIRD for t in at)
            print('%d; %d; %d; %.3f; %.3f; %.2f; %.3f; %.2f; %d' % (delay, lanes, count, at[-1], best, at[-1] / best, beside, at[-1] / beside, in_slot), flush=True)

# ---- how long aggregates take

MEMBERS, RUNS = 256, 3

def aggregated(journal, count, lanes, peers):
    """The seconds from the third of a slot to the last choice, and from its two thirds to each aggregate, in order; and the servers' own time for the question,
    for a vote with its choice, and for an aggregate: the means of these."""
    child, third = vote_once(journal, count, lanes, options=('--aggregate',), peers=peers, committee=MEMBERS)
    lines, _ = ended(child)
    signatures, asked = (peer.take() for peer in peers)
    proofs = {r.target[len(SIGN):]: signature_of(r.target[len(SIGN):], r.body['signingRoot']) for r in signatures if r.body['type'] == 'AGGREGATION_SLOT'}
    wanted('the slot is signed by %d validators' % len(proofs), sorted(proofs) == sorted(key(n) for n in range(count)))
    chosen = [key(n) for n in range(count) if is_aggregator(proofs[key(n)], MEMBERS)]
    told = ''.join('1 vote %s sent\n' % key(n) for n in range(count)) + ''.join('1 aggregate %s sent\n' % k for k in chosen)
    wanted('lines:\n' + lines, lines == told)
    posts = [r for r in asked if r.target == AGGREGATES]
    given = {signature_of(r.target[len(SIGN):], r.body['signingRoot']) for r in signatures if r.body['type'] == 'AGGREGATE_AND_PROOF'}
    for r in posts:
        message = r.body[0]['message']
        wanted('a post: %s' % r.body, len(r.body) == 1 and message['aggregate']['data'] == data_at(1) and r.body[0]['signature'] in given
               and message['selection_proof'] == proofs[key(int(message['aggregator_index']))])
    wanted('posts', sorted(key(int(r.body[0]['message']['aggregator_index'])) for r in posts) == chosen)
    wanted('an aggregate is early', min(r.begun for r in asked if r.target.startswith(AGGREGATE) or r.target == AGGREGATES) >= third + 4)
    kinds = [[r for r in asked if r.target.startswith(AGGREGATE + '?')], [r for r in signatures if r.body['type'] == 'AGGREGATE_AND_PROOF'], posts]
    wanted('requests of each kind: %s' % [len(of) for of in kinds], [len(of) for of in kinds] == [len(chosen)] * 3)
    choices = [r for r in signatures if r.body['type'] == 'AGGREGATION_SLOT']
    questions = [r for r in asked if r.target.startswith(DATA)]
    wanted('%d questions in place of one' % len(questions), len(questions) == 1)
    before = [r for r in asked if r.target.startswith(VOTES)] + [r for r in signatures if r.body['type'] == 'ATTESTATION'] + choices
    own = [sum(r.ended - r.begun for r in of) for of in (questions, before, sum(kinds, []))]
    return max(r.ended for r in choices) - third, sorted(r.ended - third - 4 for r in posts), own[0], own[1] / count, own[2] / len(chosen)

proof = {'message': {'aggregator_index': '0', 'aggregate': {'aggregation_bits': '0x' + 'ff' * 256 + '01', 'data': data_at(1), 'signature': '0x' + '77' * 96}, 'selection_proof': '0x' + '77' * 96},
         'signature': signature_of(key(0), ZERO)}
asked_for = {'type': 'AGGREGATE_AND_PROOF', 'fork_info': asked['fork_info'], 'signingRoot': ZERO, 'aggregate_and_proof': proof['message']}

def plain_aggregates(count, lanes, peers):
    """The seconds of a plain client (fast_client.c), by the same notes as those of the program."""
    service, asked = peers
    requests = [(asked.port, request('GET', AGGREGATE + '?attestation_data_root=' + ZERO + '&slot=1', None)), (service.port, request('POST', SIGN + key(0), asked_for)),
                (asked.port, request('POST', AGGREGATES, [proof]))]
    begun, over = fast_client(os.path.join(built, 'client'), requests, count, lanes)
    signatures, posts = service.take(), [r for r in asked.take() if r.target == AGGREGATES]
    wanted('a plain client with %d signatures and %d posts' % (len(signatures), len(posts)), len(signatures) == len(posts) == count)
    last = max(r.ended for r in posts)
    wanted('a plain client from %f to %f, with its last answer at %f' % (begun, over, last), begun < last <= over)
    return last - begun

def aggregates_row(delay, lanes, turn, peers):
    """A run: what its row shows from the aggregates on."""
    chosen_by, at, question, before, own = aggregated('a%d-%d-%d' % (delay, lanes, turn), 100, lanes, peers)
    late = max(0, question + math.ceil(100 / lanes) * before - 4)
    best, beside = late + math.ceil(len(at) / lanes) * own, late + plain_aggregates(len(at), lanes, peers)
    return len(at), chosen_by, at[-1], best, at[-1] / best, beside, at[-1] / beside

def aggregates_table():
    print('the middle of %d runs by their ratio to the best, and the least and the greatest of these ratios:' % RUNS)
    print('ms a signature; lanes; votes; aggregates; seconds from the third of the slot to the last choice; from its two thirds to the last aggregate; best; ratio; plain client; ratio; '
          'least; greatest', flush=True)
    peers = fast_servers(os.path.join(built, 'peers'))
    for delay, lanes in ((delay, lanes) for delay in (10, 15, 20) for lanes in (1, 4, 16)):
        peers[0].set(delay=delay / 1000)
        runs = sorted((aggregates_row(delay, lanes, turn, peers) for turn in range(RUNS)), key=lambda run: run[4])
        shown = '%d; %.3f; %.3f; %.3f; %.2f; %.3f; %.2f' % runs[RUNS // 2]
        print('%d; %d; 100; %s; %.2f; %.2f' % (delay, lanes, shown, runs[0][4], runs[-1][4]), flush=True)

if not ONLY_AGGREGATES:
    taken_in_done_and_deleted()
    votes_table(counts)
aggregates_table()
shutil.rmtree(folder)
PY
