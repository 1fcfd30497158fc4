"""What the votes of a slot wait for the disk (`waiting.sh`)."""
import collections, shutil, statistics
from stand_ins import *

count = int(sys.argv[2]) if len(sys.argv) > 2 else 1000
COMMITTEES = 64     # of a slot, as many as consensus-specs allow
shim = os.path.join(folder, 'slow_sync.so')
subprocess.run(['gcc', '-shared', '-fPIC', '-O2', '-o', shim, os.path.join(os.path.dirname(os.path.abspath(__file__)), 'slow_sync.c')], check=True)

# In a process over the same disk: the bytes of the slot and its two syncs, and SQLite inserting a row for each vote in one transaction, in its default
# journal mode and in WAL; the median of 20 each, in seconds.
PLAIN = r'''
import os, sqlite3, statistics, sys, time
room, count, size = sys.argv[1], int(sys.argv[2]), int(sys.argv[3])
def took(once):
    times = []
    for turn in range(20):
        begun = time.perf_counter()
        once(turn)
        times.append(time.perf_counter() - begun)
    return statistics.median(times)
def raw():
    file = os.open(os.path.join(room, 'raw'), os.O_RDWR | os.O_CREAT, 0o600)
    frame = b'\0' * size
    def once(turn):
        os.pwrite(file, frame, 42 + turn * size)
        os.fsync(file)
        os.pwrite(file, b'\1', 41 + turn * size)
        os.fsync(file)
    return took(once)
def rows(mode):
    base = sqlite3.connect(os.path.join(room, 'rows-' + mode), isolation_level=None)
    base.execute('pragma journal_mode=' + mode)
    base.execute('pragma synchronous=FULL')
    base.execute('create table votes (pubkey blob, source integer, target integer, root blob, unique (pubkey, target))')
    def once(turn):
        base.execute('begin immediate')
        base.executemany('insert into votes values (?, ?, ?, ?)', ((n.to_bytes(48, 'big'), turn, turn + 1, bytes(32)) for n in range(count)))
        base.execute('commit')
    return took(once)
print(raw(), rows('delete'), rows('wal'))
'''

def over(microseconds):
    return {**os.environ, 'LD_PRELOAD': shim, 'SYNC_MICROSECONDS': str(microseconds)}

def plain(microseconds, size):
    with tempfile.TemporaryDirectory() as room:
        told = subprocess.run([sys.executable, '-c', PLAIN, room, str(count), str(size)], env=over(microseconds), capture_output=True, text=True, check=True)
    return [float(word) for word in told.stdout.split()]

def single():
    """The syncs that the system is asked for one vote of a session: those of ten votes less those of five, by five."""
    sessions('single', [{'op': 'activate', 'pubkey': key(n)} for n in range(15)])
    counts = []
    for numbers in (range(5), range(5, 15)):
        counted = os.path.join(folder, 'single-syncs-%d' % len(numbers))
        lines = ''.join(json.dumps({'op': 'vote', 'pubkey': key(n), 'source_epoch': '0', 'target_epoch': '1', 'signing_root': ZERO}) + '\n' for n in numbers)
        told = subprocess.run([program, 'session', '--genesis', GENESIS_ROOT, '--journal', os.path.join(folder, 'single')], input=lines, capture_output=True, text=True, env={**over(40), 'SYNCS': counted})
        wanted('session: ' + told.stdout + told.stderr, told.returncode == 0 and told.stdout.count('"answer":"signed"') == len(numbers))
        counts.append(os.path.getsize(counted))
    return (counts[1] - counts[0]) / 5

def slot(microseconds, lanes, delay=0):
    """The seconds from the last node's answer what to vote to the first request for a signature, those from the slot's third to that request and to the last
    post, and the bytes, where a node takes that many seconds to say what a committee is to vote."""
    journal = 'journal-%d-%d-%g' % (microseconds, lanes, delay)
    sessions(journal, [{'op': 'activate', 'pubkey': key(n)} for n in range(count)])
    genesis = int(time.time()) - 6
    node.set(genesis_time=genesis, blocks={}, votes={n: 1 for n in range(count)}, committees=COMMITTEES, delay=delay)
    node.take(), signer.take()
    counted, file = os.path.join(folder, journal + '-syncs'), os.path.join(folder, journal + '.a')
    child = serve(journal, 2, 0, lanes, before=['env', 'LD_PRELOAD=' + shim, 'SYNCS=' + counted, 'SYNC_MICROSECONDS=%d' % microseconds])
    third = genesis + SLOT + THIRD
    time.sleep(max(0, third - 0.5 - time.time()))
    synced, size = os.path.getsize(counted), os.path.getsize(file)
    ended(child)
    asked, signed_for = node.take(), signer.take()
    posts = [r for r, _ in posted(asked)]
    wanted('%d votes in place of %d' % (len(posts), count), len(posts) == count)
    syncs = os.path.getsize(counted) - synced
    wanted('%d syncs for the votes of a slot in place of two' % syncs, syncs == 2)
    questions = [r for r in asked if r.target.startswith(DATA)]
    about = sorted(int(r.target.split('committee_index=')[1].split('&')[0]) for r in questions)
    wanted('questions for the committees %s in place of one for each of %d' % (about, COMMITTEES), about == list(range(min(count, COMMITTEES))))
    cast = collections.Counter(int(body['data']['index']) for _, body in posted(asked))
    wanted('votes by committee: %s' % cast, cast == collections.Counter(n % COMMITTEES for n in range(count)))
    told = max(r.ended for r in questions)
    first = min(r.begun for r in signed_for if r.target.startswith(SIGN))
    return first - told, first - third, max(r.ended for r in posts) - third, os.path.getsize(file) - size

syncs = single()
wanted('%g syncs for one vote of a session in place of two' % syncs, syncs == 2)
print('%d votes of one slot, in 64 committees. Of each row: the milliseconds of a sync; lanes; milliseconds from the last answer of a node to the first request for a signature;' % count)
print('those of the same bytes written with two syncs, and the ratio; of SQLite in one transaction, by default and in WAL; seconds from the third to the last post.')
for microseconds in (40, 2000, 10000):
    rows = [(lanes, *slot(microseconds, lanes)) for lanes in (1, 4, 16)]
    raw, default, wal = plain(microseconds, rows[0][-1])
    for lanes, took, _, whole, size in rows:
        print('| %g | %d | %.2f | %.2f | %.2f | %.2f | %.2f | %.2f |' % (microseconds / 1000, lanes, took * 1e3, raw * 1e3, took / raw, default * 1e3, wal * 1e3, whole))
print('The same with syncs of 0.04 ms and a node that takes 50 ms to say what a committee is to vote: lanes; seconds from the third to the first request for a')
print('signature, and to the last post.')
for lanes in (1, 4, 16):
    _, first, whole, _ = slot(40, lanes, 0.05)
    print('| %d | %.2f | %.2f |' % (lanes, first, whole), flush=True)
shutil.rmtree(folder)
