#!/usr/bin/env bash
# The built program as a validator client (stand_ins.py): keys are deleted by the Keymanager API while their duties run. In each run 12 keys
# vote in a slot, in four lanes, with a signing service that takes 20 ms, and five of the keys are deleted, each at a random moment of the
# first 80 ms after the slot's third. Behind the answer to a deletion no request for a signature of that key may begin and no post of it, and
# the file in the answer must hold the root of each vote of it that was posted. Fifty take a minute and a half.
# Usage: bench/deletions.sh [DELETIONS] [SEED]     (50, and a seed by the clock; PROGRAM=PATH for another program)
set -eu
cd "$(dirname "$0")/.."
program=${PROGRAM:-crates/validator/out/validator}
[ -x "$program" ] || { echo "bench/deletions.sh: $program is not there: run 'rt run -- --version' in crates/validator first" >&2; exit 1; }
exec env PYTHONPATH=bench python3 -B - "$program" "${1:-50}" "${2:-$(date +%s)}" <<'PY'
import http.client, json, random, shutil, sys, threading, time
from stand_ins import *

deletions, seed = int(sys.argv[2]), int(sys.argv[3])
KEYS, EACH, WINDOW = 12, 5, 0.08

def delete(pubkey, at, told):
    """Deletes a key at this moment, and notes when the request was sent, when its answer was read, and the answer."""
    time.sleep(max(0, at - time.time()))
    link = http.client.HTTPConnection('127.0.0.1', port)
    sent = time.time()
    link.request('DELETE', '/eth/v1/keystores', json.dumps({'pubkeys': [pubkey]}), {'Authorization': 'Bearer ' + TOKEN, 'Content-Type': 'application/json'})
    answer = link.getresponse().read()
    told[pubkey] = sent, time.time(), json.loads(answer)

def roots_in(answer, pubkey):
    return {row['signing_root'] for kept in json.loads(answer['slashing_protection'])['data'] if kept['pubkey'] == pubkey for row in kept['signed_attestations']}

random.seed(seed)
signer.set(delay=0.02)
tried, late_posts, late_signs, before, within, uncovered = 0, 0, 0, 0, 0, 0
for run in range(-(-deletions // EACH)):
    count = min(EACH, deletions - tried)
    child, third = vote_once('d%d' % run, KEYS, 4, count)
    told, keys = {}, random.sample([key(n) for n in range(KEYS)], count)
    threads = [threading.Thread(target=delete, args=(pubkey, third + random.uniform(0, WINDOW), told)) for pubkey in keys]
    for thread in threads:
        thread.start()
    for thread in threads:
        thread.join()
    wanted('deletions without an answer', set(told) == set(keys))
    lines, _ = ended(child)
    asked, posts = signer.take(), posted(node.take())
    of = {signature: (pubkey, root) for signature, pubkey, root in signed(asked)}
    made = [(request, *of[vote['signature']]) for request, vote in posts]
    wanted('lines:\n' + lines, sorted(pubkey for _, pubkey, _ in made) == sorted(line.split()[2] for line in lines.splitlines() if line.endswith(' sent')))
    wanted('a key that was not deleted did not vote:\n' + lines, {pubkey for _, pubkey, _ in made} | set(keys) == {key(n) for n in range(KEYS)})
    for pubkey, (sent, answered, answer) in told.items():
        wanted('deletion: %s' % answer, [row['status'] for row in answer['data']] == ['deleted'])
        mine = [(request, root) for request, p, root in made if p == pubkey]
        late_posts += sum(request.begun > answered for request, _ in mine)
        late_signs += sum(request.begun > answered for request in asked if request.target == SIGN + pubkey)
        before += sum(request.ended < sent for request, _ in mine)
        within += sum(request.ended >= sent and request.begun <= answered for request, _ in mine)
        uncovered += sum(root not in roots_in(answer, pubkey) for _, root in mine)
    tried += count
print('deletions %d, posts after the answer %d' % (tried, late_posts))
print('requests for a signature after the answer %d, posts that the file lacks %d; posts before the deletion %d, during it %d, none %d; seed %d'
      % (late_signs, uncovered, before, within, tried - before - within - late_posts, seed))
shutil.rmtree(folder)
sys.exit(1 if late_posts or late_signs or uncovered else 0)
PY
