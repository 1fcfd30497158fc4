"""A year of a validator client in some hours (`year.sh`): the driver. The words are the program, the folder of the built peers and the built
clock, the number of weeks and the number of keys."""
import http.client, json, mmap, os, random, signal, socket, struct, subprocess, sys, time

program, built, weeks, keys = os.path.abspath(sys.argv[1]), sys.argv[2], int(sys.argv[3]), int(sys.argv[4])
lanes, seed = int(os.environ.get('LANES', '4')), int(os.environ.get('SEED', '1'))
slots_a_week = int(os.environ.get('SLOTS_A_WEEK', '50400'))
inside = os.environ.get('PEERS', 'inside') == 'inside'
keep_epochs, more_words = os.environ.get('KEEP_EPOCHS', '64'), os.environ.get('WORDS', '').split()

GENESIS_ROOT, TOKEN = '0x' + '5a' * 32, 'a-token-of-36-characters-0123456789'
SLOTS, SECONDS, FIRST_EPOCH = 32, 12, 10
FIRST_SLOT = FIRST_EPOCH * SLOTS
LIMIT = keys + weeks + 64
PERIOD = max(1, int(os.environ.get('VALIDATORS', '1000000')) // keys)
MIB = 1 << 20
# the numbers that the peers keep (`enum count` of year_answers.h), and how many there is room for before the epochs of the last votes
COUNTS = ('requests', 'busy', 'votes', 'votes_again', 'votes_late', 'votes_wrong', 'gaps', 'blocks', 'blocks_again', 'blocks_late', 'turn',
          'lines_sent', 'lines_other', 'starts', 'no_key', 'faults', 'next_block')
ALL_COUNTS = 64
QUIET_SECONDS = 60

def key(number):
    return '0x' + (number + 1).to_bytes(48, 'big').hex()

def stop(why):
    """Ends with status 1, and with the last that the program and its peers said."""
    said = ''
    for name in ('errors', 'peers'):
        path = os.path.join(folder, name)
        if os.path.exists(path) and os.path.getsize(path):
            with open(path, errors='replace') as file:
                said += '\n%s:\n%s' % (name, file.read()[-2000:])
    sys.exit('bench/year.sh: %s%s' % (why, said))

def wanted(what, is_so):
    if not is_so:
        stop(what)

# ---- the driven clock

def place(name, size):
    """A file of zeros that other processes map, too."""
    path = os.path.join(folder, name)
    with open(path, 'wb') as file:
        file.truncate(size)
    with open(path, 'r+b') as file:
        return path, mmap.mmap(file.fileno(), size)

def now():
    """The driven clock, in seconds since 1970."""
    return (time.time_ns() + struct.unpack_from('<q', ahead)[0]) / 1e9

def slot_now():
    return int(now() - genesis_time) // SECONDS

def drive_to(moment):
    """Sets the driven clock. Only while the program does not run."""
    struct.pack_into('<q', ahead, 0, int(moment * 1e9) - time.time_ns())

# ---- the peers

def count(name):
    return struct.unpack_from('<Q', counts, 8 * COUNTS.index(name))[0]

def last_epoch(number):
    return struct.unpack_from('<q', counts, 8 * (ALL_COUNTS + number))[0]

def peer_words():
    return [str(word) for word in (genesis_time, keys, LIMIT, PERIOD, clock_path, counts_path, os.path.join(folder, 'notes'))]

def start_peers():
    """The process of the peers and their ports. Peers inside the program have ports that nobody listens at, and no process."""
    if inside:
        held.extend(socket.socket() for _ in range(2))
        for it in held:
            it.bind(('127.0.0.1', 0))
        return None, [str(it.getsockname()[1]) for it in held]
    words = [os.path.join(built, 'peers'), *peer_words(), os.path.join(folder, 'lines')]
    with open(os.path.join(folder, 'peers'), 'ab') as errors:
        started.append(subprocess.Popen(words, stdout=subprocess.PIPE, stderr=errors, text=True))
    ports = started[-1].stdout.readline().split()
    wanted('the peers do not start', len(ports) == 2)
    return started[-1], ports

# ---- the program

def serve(*words):
    """Starts the program over the driven clock. Its lines go to the peers."""
    line = [program, 'serve', '--genesis', GENESIS_ROOT, '--journal', journal, '--signer', 'http://127.0.0.1:' + ports[1], '--listen', '127.0.0.1:%d' % port,
            '--token', TOKEN, '--lanes', str(lanes), *keep_words, *more_words, *words, 'http://127.0.0.1:' + ports[0]]
    surroundings = {**os.environ, 'LD_PRELOAD': os.path.join(built, 'inside.so' if inside else 'clock.so'), 'YEAR_CLOCK': clock_path,
                    'YEAR_PEERS': ' '.join([*peer_words(), *ports])}
    # a pipe that the peers do not read is an error here, rather than a wait
    lines = os.open(os.devnull if inside else os.path.join(folder, 'lines'), os.O_WRONLY | os.O_NONBLOCK)
    os.set_blocking(lines, True)
    with os.fdopen(lines, 'wb') as out, open(os.path.join(folder, 'errors'), 'ab') as errors:
        started.append(subprocess.Popen(line, stdin=subprocess.DEVNULL, stdout=out, stderr=errors, env=surroundings))
    return started[-1]

def ended(child, status):
    try:
        wanted('the program ended with status %d in place of %d' % (child.wait(60), status), child.returncode == status)
    except subprocess.TimeoutExpired:
        stop('the program did not end')

def look(child):
    """Stops where the program or its peers ended, or nothing was asked for a while."""
    wanted('the program ended with status %s' % child.poll(), child.poll() is None)
    wanted('the peers ended with status %s' % (peers and peers.poll()), inside or peers.poll() is None)
    asked = count('requests')
    if asked != watched[0]:
        watched[:] = [asked, time.monotonic()]
    wanted('the program asked nothing for %d seconds' % QUIET_SECONDS, time.monotonic() - watched[1] < QUIET_SECONDS)

def memory(child, name):
    """How many KiB: `VmRSS` is what is resident, `VmHWM` the most that was since the start."""
    try:
        with open('/proc/%d/status' % child.pid) as status:
            return next(int(line.split()[1]) for line in status if line.startswith(name + ':'))
    except StopIteration:
        stop('the program has no memory any more')

def sizes():
    return [os.path.getsize(journal + end) if os.path.exists(journal + end) else 0 for end in ('.a', '.b')]

def manager(method, body, child):
    """A call of the Keymanager API, again and again while the program is not there yet."""
    begun = time.monotonic()
    while True:
        look(child)
        link = http.client.HTTPConnection('127.0.0.1', port, timeout=60)
        try:
            link.request(method, '/eth/v1/keystores', json.dumps(body), {'Authorization': 'Bearer ' + TOKEN, 'Content-Type': 'application/json', 'Connection': 'close'})
            answer = link.getresponse()
            text = answer.read()
            wanted('%s of keystores is answered %d: %s' % (method, answer.status, text[:500]), answer.status == 200)
            return json.loads(text)
        except ConnectionRefusedError:
            wanted('nobody listens for the Keymanager API', time.monotonic() - begun < 60)
            time.sleep(0.02)
        except (OSError, http.client.HTTPException, ValueError) as fault:
            stop('%s of keystores: %r' % (method, fault))
        finally:
            link.close()

def take_in(numbers, file, child):
    body = {'keystores': [json.dumps({'pubkey': key(n)[2:]}) for n in numbers], 'passwords': ['p'] * len(numbers)}
    if file:
        body['slashing_protection'] = file
    told = manager('POST', body, child)
    wanted('keys are not taken in: %s' % str(told)[:500], [row['status'] for row in told['data']] == ['imported'] * len(numbers))

def give_up(number, child):
    told = manager('DELETE', {'pubkeys': [key(number)]}, child)
    wanted('key %d is not given up: %s' % (number, str(told)[:500]), [row['status'] for row in told['data']] == ['deleted'])
    return told['slashing_protection']

# ---- which votes and blocks are due

class Due:
    """For each key from which slot on, and up to which, each of its votes is due; and what became of them."""

    def __init__(self):
        self.stints = {n: [[FIRST_SLOT, None]] for n in range(keys)}
        self.barred, self.blocks, self.missed, self.read, self.other = [], set(), 0, 0, []

    def active(self):
        return [n for n, stints in self.stints.items() if stints[-1][1] is None]

    def end(self, number, slot):
        self.stints[number][-1][1] = slot

    def begin(self, number, slot):
        self.stints.setdefault(number, []).append([slot, None])

    def is_due(self, number, slot):
        return any(begun <= slot and (ended is None or slot < ended) for begun, ended in self.stints.get(number, []))

    def take_notes(self):
        """Goes on to read what the peers wrote down. A line that is not whole yet is left for the next time."""
        with open(os.path.join(folder, 'notes'), 'rb') as file:
            file.seek(self.read)
            text = file.read()
        whole = text[:text.rfind(b'\n') + 1]
        self.read += len(whole)
        for line in whole.decode(errors='replace').split('\n')[:-1]:
            kind, *words = line.split(' ')
            if kind == 'gap':
                number, first, last = map(int, words)
                self.missed += sum(self.is_due(number, epoch * SLOTS + number % SLOTS) for epoch in range(first, last + 1))
            elif kind == 'block':
                self.blocks.add(int(words[0]))
            else:
                self.other.append(line)

    def expected(self, until):
        """How many votes were due before a slot."""
        first = lambda number, slot: -((number % SLOTS - slot) // SLOTS)
        return sum(max(0, first(n, min(ended or until, until)) - first(n, begun)) for n, stints in self.stints.items() for begun, ended in stints)

    def open_at_end(self, until):
        """How many votes that were due before a slot are missing after the last vote of their key."""
        missing = 0
        for number, stints in self.stints.items():
            first = max(last_epoch(number) + 1, FIRST_EPOCH)
            missing += sum(self.is_due(number, slot) for slot in range(first * SLOTS + number % SLOTS, until, SLOTS))
        return missing

    def lost_blocks(self, until):
        due = set(range(-(-FIRST_SLOT // PERIOD) * PERIOD, until, PERIOD))
        lost = due - self.blocks
        return len(due), [slot for slot in lost if not any(begun <= slot < ended for begun, ended in self.barred)]

def hand_over(week, child):
    """Gives a key up, and takes it in again with its file; every other week another one takes its place, with the same file under its name."""
    old = draw.choice(due.active())
    begun = slot_now()
    file = give_up(old, child)
    due.end(old, begun)
    if week % 2:
        new = old
    else:
        new = due.newest = due.newest + 1
        file = json.loads(file)
        for entry in file['data']:
            entry['pubkey'] = key(new)
        file = json.dumps(file)
    take_in([new], file, child)
    # its first duty is in the next slot at the earliest; from the next epoch on each vote is due
    begins = ((slot_now() + 1) // SLOTS + 1) * SLOTS
    due.begin(new, begins)
    due.barred.append((begun, begins))

def restart(child, pace):
    """Kills the program at some moment of the next slots, each of which takes that many real seconds, and starts it again."""
    time.sleep(draw.random() * 3 * pace)
    child.kill()
    ended(child, -signal.SIGKILL)
    return serve()

# ---- a week

def one_week(week, child):
    """Gives the program that runs at its end, what was resident at the looks, the most that ever was, and the most that a file of the journal had."""
    end = FIRST_SLOT + week * slots_a_week
    acts = sorted((end - slots_a_week * draw.uniform(0.05, 1), act) for act in ('hand over', 'restart'))
    begun, first, up = time.monotonic(), slot_now(), 0
    most, largest, resident = 0, 0, []
    while True:
        look(child)
        largest = max(largest, *sizes())
        resident.append(memory(child, 'VmRSS'))
        slot = slot_now()
        while acts and acts[0][0] <= slot:
            act = acts.pop(0)[1]
            if act == 'restart':
                most = max(most, memory(child, 'VmHWM'))
                child = restart(child, (time.monotonic() - begun) / (slot - first + 1))
                up = slot_now()
            else:
                hand_over(week, child)
        # a program that was just started is looked at an epoch later, which matters in short weeks only
        if slot >= max(end, up + SLOTS):
            return child, sum(resident) / len(resident), max(most, memory(child, 'VmHWM')), largest
        time.sleep(0.01)

def row_of(week, child, mean, most, largest, took):
    until = slot_now()
    posted, lost = count('votes'), due.open_at_end(until)
    due.take_notes()
    expected, lost = due.expected(until), lost + due.missed
    blocks, lost_blocks = due.lost_blocks(until)
    a, b = sizes()
    turn = count('turn') / 1e9
    struct.pack_into('<Q', counts, 8 * COUNTS.index('turn'), 0)
    row = dict(week=week, mean=mean, resident=memory(child, 'VmRSS'), most=most, a=a, b=b, largest=max(largest, a, b), expected=expected, posted=posted, lost=lost,
               late=count('votes_late'), again=count('votes_again'), blocks=count('blocks'), lost_blocks=len(lost_blocks), turn=turn, took=took)
    print('; '.join(['%(week)d', '%(mean).0f', '%(resident)d', '%(most)d', '%(a)d', '%(b)d', '%(largest)d', '%(expected)d', '%(posted)d', '%(lost)d', '%(late)d', '%(again)d',
                     '%(blocks)d', '%(lost_blocks)d', '%(turn).3f', '%(took).0f']) % row, flush=True)
    return row

def opening():
    """The seconds of showing the journal, the best of three, and how many keys are active."""
    best = None
    for _ in range(3):
        begun = time.perf_counter()
        told = subprocess.run([program, 'show', '--genesis', GENESIS_ROOT, '--journal', journal], capture_output=True, text=True)
        took = time.perf_counter() - begun
        wanted('show ends with status %d: %s' % (told.returncode, told.stdout[-300:] + told.stderr[-300:]), told.returncode == 0)
        best = took if best is None else min(best, took)
    return best, sum(line.split(' ')[1:2] == ['active'] for line in told.stdout.splitlines())

def whole_handover():
    """Gives all keys up by one DELETE, and gives the bytes of a POST that takes them in with the file that came."""
    child = serve('--slots', '0', '--connections', '1')
    told = manager('DELETE', {'pubkeys': [key(n) for n in due.active()]}, child)
    wanted('keys are not given up: %s' % str(told)[:500], all(row['status'] == 'deleted' for row in told['data']))
    ended(child, 0)
    numbers = due.active()
    return len(json.dumps({'keystores': [json.dumps({'pubkey': key(n)[2:]}) for n in numbers], 'passwords': ['p'] * len(numbers), 'slashing_protection': told['slashing_protection']}))

def judge(rows, opened, active, handover):
    first, last = rows[0], rows[-1]
    resident, most = max(max(row['mean'], row['resident']) for row in rows), max(row['most'] for row in rows)
    peak = max(row['largest'] for row in rows)
    room = 64 * max(1, keys / 1000)
    goals = [
        ('memory stays', abs(last['mean'] / first['mean'] - 1) <= 0.2, 'resident in the mean of the first week %d KiB, of the last %d' % (first['mean'], last['mean'])),
        ('memory is small', resident <= room * 1024, 'at most %.1f MiB were resident in the mean and at the end of a week, of %d (%.1f at any moment)' % (resident / 1024, room, most / 1024)),
        ('journal is small', peak <= 65 * MIB, 'a file had at most %.1f MiB at any look, of 64 and what an epoch adds' % (peak / MIB)),
        ('opening', opened < 0.3, '%.3f s, of 0.3' % opened),
        ('no vote lost', last['lost'] == last['late'] == count('votes_wrong') == 0 and last['posted'] >= last['expected'],
         '%d expected, %d posted, %d lost, %d late, %d wrong' % (last['expected'], last['posted'], last['lost'], last['late'], count('votes_wrong'))),
        ('no block lost', last['lost_blocks'] == count('blocks_late') == 0, '%d posted, %d lost, %d late' % (last['blocks'], last['lost_blocks'], count('blocks_late'))),
        ('keys', active == keys, '%d active, of %d' % (active, keys)),
        ('handover', handover <= 16 * MIB, 'a POST of all keys and their file has %d bytes, of %d' % (handover, 16 * MIB)),
    ]
    for name, passes, why in goals:
        print('%s %s: %s' % ('pass' if passes else 'FAIL', name, why))
    return all(passes for _, passes, _ in goals)

# ---- the whole

# so that what was started is ended, too
for number in (signal.SIGTERM, signal.SIGINT, signal.SIGHUP):
    signal.signal(number, lambda number, _: sys.exit(128 + number))

folder = os.path.join(built, 'run')
os.mkdir(folder)
journal = os.path.join(folder, 'journal')
os.mkfifo(os.path.join(folder, 'lines'))
clock_path, ahead = place('clock', 8)
counts_path, counts = place('counts', 8 * (ALL_COUNTS + LIMIT) + LIMIT)
for number in range(LIMIT):
    struct.pack_into('<q', counts, 8 * (ALL_COUNTS + number), FIRST_EPOCH - 1)
watched = [0, time.monotonic()]
draw = random.Random(seed)
genesis_time = int(time.time())
with open(os.path.join(folder, 'notes'), 'wb'):
    pass
with socket.socket() as free:
    free.bind(('127.0.0.1', 0))
    port = free.getsockname()[1]

helped = subprocess.run([program, 'serve', '--help'], capture_output=True, text=True)
wanted('serve --help ends with status %d' % helped.returncode, helped.returncode == 0)
has_keep = '--keep-epochs' in helped.stdout + helped.stderr
keep_words = ['--keep-epochs', keep_epochs] if has_keep and keep_epochs else []
print('serve %s, %d lanes; %d weeks of %d slots, %d keys, a block in each slot that %d divides; seed %d' % (
    ' '.join(keep_words + more_words) if keep_words + more_words else 'without --keep-epochs' + ('' if has_keep else ', which this program lacks'),
    lanes, weeks, slots_a_week, keys, PERIOD, seed), flush=True)

started, held = [], []
try:
    peers, ports = start_peers()
    # keys are taken in, a hundred at once, while no duties are done
    groups = [range(at, min(at + 100, keys)) for at in range(0, keys, 100)]
    child = serve('--slots', '0', '--connections', str(len(groups)))
    for group in groups:
        take_in(group, None, child)
    ended(child, 0)

    due = Due()
    due.newest = keys - 1
    drive_to(genesis_time + FIRST_SLOT * SECONDS + 0.5)
    child = serve()
    print('week; mean KiB; resident KiB; highest KiB; bytes of PATH.a; of PATH.b; highest of either; votes expected; posted; lost; late; posted again; blocks; blocks lost; longest turn s; real s', flush=True)
    rows = []
    for week in range(1, weeks + 1):
        begun = time.monotonic()
        child, mean, most, largest = one_week(week, child)
        rows.append(row_of(week, child, mean, most, largest, time.monotonic() - begun))
    child.kill()
    ended(child, -signal.SIGKILL)
    asked, busy = count('requests'), count('busy')
    print('%d requests, %.1f microseconds of the peers for each; %d lines of duties sent, %d other; %d starts; %d requests for keys that were given up; %d faults of connections' % (
        asked, busy / max(asked, 1) / 1000, count('lines_sent'), count('lines_other'), count('starts'), count('no_key'), count('faults')))
    for line in due.other[:20]:
        print('noted: ' + line)
    with open(os.path.join(folder, 'errors'), errors='replace') as errors:
        for line in errors.read().splitlines()[:20]:
            print('standard error: ' + line)
    passes = judge(rows, *opening(), whole_handover())
finally:
    for process in started:
        if process.poll() is None:
            process.kill()
            process.wait()
sys.exit(not passes)
