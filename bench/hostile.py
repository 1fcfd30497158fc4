"""Plays changed files, lines, requests, responses and journals to the built program, for `hostile.sh`."""
import collections, json, multiprocessing, os, random, re, signal, socket, subprocess, sys, tempfile, threading, time
import hostile_inputs as inputs
import hostile_large as limits
import hostile_readings as reading
from hostile_inputs import KEY, PATHS, SLOT
from hostile_readings import GENESIS, TOKEN, Client, compact

PROGRAM, EACH = sys.argv[1], sys.argv[2]
# The bounds of an input: processor time, and memory above what the program has and that many times the input. The C library takes memory
# in steps of 132 KiB, and a thread's first in a step of its own.
MICROS, TIMES, SLACK = 50000, 3, 600

# Seconds after which a process that gives no answer, or does not end, is killed: an answer has the first, a run of `serve` the second.
LIMIT, TURN_LIMIT = 20, 600

class Differs(Exception):
    """The program did another thing than what was wanted."""

FAILURES = Differs, OSError, subprocess.TimeoutExpired

def wanted(what, data, is_so, *found):
    if not is_so:
        raise Differs('%s: %s\ninput: %r' % (what, '\n'.join(map(repr, found)), data if len(data) < 4000 else data[:2000] + b' .. ' + data[-500:]))

# ---- what is counted

class Tally:
    def __init__(self):
        self.tried, self.kinds, self.peak, self.differs = 0, collections.Counter(), 0, []
        self.slowest, self.longest, self.greedy = (0, 0, ''), (0, 0, ''), (0, 0, '')
        self.over, self.late = collections.Counter(), collections.Counter()

    def count(self, kind, name, size, micros, wall, extra, peak, data=b''):
        """An input of this size took that many microseconds of processor time, that many went by, and that many KiB more memory were held at its peak."""
        self.tried += 1
        self.kinds[kind] += 1
        self.peak = max(self.peak, peak)
        self.slowest = max(self.slowest, (micros, size, name))
        self.longest = max(self.longest, (wall, size, name))
        above = extra - TIMES * size // 1024
        self.greedy = max(self.greedy, (above, size, name))
        if micros > MICROS * max(1, size / 2 ** 20):
            self.over['time: %s of %d bytes took %.1f ms: %r' % (name, size, micros / 1000, data[:200])] += 1
        if above > SLACK:
            self.over['memory: %s of %d bytes took %d KiB: %r' % (name, size, extra, data[:200])] += 1

    def join(self, other):
        self.tried += other.tried
        self.kinds += other.kinds
        self.over += other.over
        self.late += other.late
        self.peak = max(self.peak, other.peak)
        self.differs += other.differs
        self.slowest, self.longest, self.greedy = (max(getattr(self, it), getattr(other, it)) for it in ('slowest', 'longest', 'greedy'))

    def told(self):
        read = {kind: number for kind, number in self.kinds.items() if kind.startswith('read')}
        yield '  tried %d: %s' % (self.tried, ', '.join('%s %d' % it for it in sorted(read.items())) or 'none read')
        refused = sorted((it for it in self.kinds.items() if it[0] not in read), key=lambda it: (-it[1], it[0]))
        yield '  refused %d: %s' % (sum(number for _, number in refused), ', '.join('%s %d' % it for it in refused))
        yield '  peak %.1f MB; most above three times the input %.0f KiB (%s, %d bytes)' % (self.peak / 1024, self.greedy[0], self.greedy[2], self.greedy[1])
        yield '  slowest %.1f ms of processor time (%s, %d bytes); longest %.1f ms (%s, %d bytes)' % (
            self.slowest[0] / 1000, self.slowest[2], self.slowest[1], self.longest[0] / 1000, self.longest[2], self.longest[1])
        yield '  late %d%s' % (sum(self.late.values()), ''.join(', %s %d' % it for it in sorted(self.late.items())))
        for what in sorted(self.over)[:20]:
            yield '  above the bounds: %s' % what
        if len(self.over) > 20:
            yield '  above the bounds: %d more' % (len(self.over) - 20)

# ---- the program, as a process that lives over many inputs

class Living:
    def __init__(self, words, **streams):
        self.process = subprocess.Popen([PROGRAM] + words, **streams)
        self.clock = (~self.process.pid << 3) | 2
        self.begun, self.overdue = None, None
        # (the input before, and the one that it has, or had last)
        self.earlier, self.data = b'', b''

    def limited(self, seconds=LIMIT):
        """Kills the process after that many seconds, unless what this gives is cancelled before."""
        timer = threading.Timer(seconds, self.expire, [seconds])
        timer.daemon = True
        timer.start()
        return timer

    def expire(self, seconds):
        self.overdue = seconds
        self.process.kill()

    def ended(self):
        """How the process has ended."""
        code = self.process.returncode
        told = 'it is still there' if code is None else 'status %d' % code if code >= 0 else 'signal %d' % -code
        return told + (', as it was killed after %d s' % self.overdue if self.overdue else '')

    def fail(self, what, *found):
        """Names the input that the process has, and the one before, after whose answer it may have ended, and how it ended. Where it has not it is killed."""
        try:
            self.process.wait(1)
        except subprocess.TimeoutExpired:
            found += ('it was still there, and is killed',)
            self.stop()
        wanted(what, self.data, False, self.ended(), *found, b'after ' + self.earlier[:2000])

    def memory(self):
        """The greatest memory that was resident since it was last asked from when on, what of it is of files now, and what is not."""
        with open('/proc/%d/status' % self.process.pid) as status:
            text = status.read()
        found = [re.search(name + r':\s+(\d+)', text) for name in ('VmHWM', 'RssFile', 'RssAnon')]
        if None in found:
            # (of a process that has ended the system does not tell them)
            self.fail('a process that lives')
        return [int(it[1]) for it in found]

    def begin(self, data):
        """Before an input is given."""
        try:
            with open('/proc/%d/clear_refs' % self.process.pid, 'w') as file:
                file.write('5')
            self.held, self.spent, self.begun = self.memory()[2], time.clock_gettime_ns(self.clock), time.perf_counter_ns()
        except OSError as fault:
            self.fail('a process that lives', fault)
        self.earlier, self.data = self.data, data

    def end(self, tally, kind, name, size):
        try:
            wall, spent = time.perf_counter_ns(), time.clock_gettime_ns(self.clock)
            peak, of_files, _ = self.memory()
        except OSError as fault:
            self.fail('a process that lives', fault)
        self.took = (wall - self.begun) / 1e9
        tally.count(kind, name, size, (spent - self.spent) // 1000, (wall - self.begun) // 1000, max(0, peak - of_files - self.held), peak, self.data)

    def stop(self):
        self.process.kill()
        self.process.wait()

class Session(Living):
    def __init__(self, *words):
        super().__init__(['session', '--genesis', GENESIS, *words], stdin=subprocess.PIPE, stdout=subprocess.PIPE, stderr=subprocess.DEVNULL)

    def answer(self, line):
        timer, told = self.limited(), b''
        try:
            self.process.stdin.write(line + b'\n')
            self.process.stdin.flush()
            told = self.process.stdout.readline()
        except OSError:
            pass
        finally:
            timer.cancel()
        if not told.endswith(b'\n'):
            self.fail('an answer', told)
        return told[:-1]

    def close(self, data):
        timer = self.limited()
        try:
            self.process.stdin.close()
            rest = self.process.stdout.read()
            self.process.wait()
        finally:
            timer.cancel()
        wanted('the end of a session', data, self.process.returncode == 0 and rest == b'', self.ended(), rest)

# ---- the program, a run for each input

class Each:
    def __init__(self, folder, *words):
        self.given, self.told = os.path.join(folder, 'in'), os.path.join(folder, 'out')
        self.helper = subprocess.Popen([EACH, PROGRAM, *words], stdin=subprocess.PIPE, stdout=subprocess.PIPE, text=True)
        self.own = 0

    def warm(self, data=b''):
        """A run that is no input: what the program has is the most that such a run takes."""
        self.own = max(self.own, self.run(data)[5])

    def run(self, data=b''):
        """The status, the output, processor time, the time that went by, and the memory above what the program has, with the peak."""
        with open(self.given, 'wb') as file:
            file.write(data)
        self.helper.stdin.write('%s\t%s\n' % (self.given, self.told))
        self.helper.stdin.flush()
        told = self.helper.stdout.readline().split()
        wanted('a run that can be begun', data, len(told) == 4, told)
        status, micros, wall, peak = map(int, told)
        with open(self.told, 'rb') as file:
            return status, file.read(), micros, wall, peak - self.own, peak

    def stop(self):
        self.helper.stdin.close()
        self.helper.wait()

def bytes_at(path):
    try:
        with open(path, 'rb') as file:
            return file.read()
    except FileNotFoundError:
        return None

def put_bytes(path, data):
    if data is None:
        if os.path.exists(path):
            os.remove(path)
    else:
        with open(path, 'wb') as file:
            file.write(data)

class Journal:
    def __init__(self, folder):
        self.path = os.path.join(folder, 'journal')

    def held(self):
        return bytes_at(self.path + '.a'), bytes_at(self.path + '.b')

    def put(self, first, second):
        put_bytes(self.path + '.a', first)
        put_bytes(self.path + '.b', second)

# ---- session lines, and files that are merged by a line

def name_of(answer):
    """What an answer is counted as."""
    if answer['answer'] != 'refused':
        return 'read, ' + answer['answer'] + (' ' + answer['cause'] if 'cause' in answer else '')
    return ' '.join(str(answer[it]) for it in ('reason', 'member') if it in answer)

def play_line(session, client, tally, name, data):
    answer = reading.answer_to(client, data)
    session.begin(data)
    got = session.answer(data)
    session.end(tally, name_of(answer), name, len(data))
    if answer['answer'] == 'compacted':
        wanted('an answer', data, re.fullmatch(rb'\{"after":"\d+","answer":"compacted","before":"\d+"\}', got), got)
    else:
        wanted('an answer', data, got == compact(answer).encode('utf-8', 'surrogatepass'), answer, got)

def check_all(session, client, data):
    """All that is kept is what the reading keeps."""
    got = session.answer(b'{"op":"export"}')
    wanted('what is kept', data, got == compact({'answer': 'exported', 'file': client.file(client.keys)}).encode(), got)

def play_examples(draw, session, client, examples, count):
    """Lines that are examples as they stand, so that keys are active and files merged."""
    for _ in range(count):
        data = draw.choice(examples)
        play_line(session, client, Tally(), '', data)

def play_lines(draw, count, tally, make):
    """Lines of sessions of 60 each, among lines that are no input, and what is kept after every fifth."""
    examples = inputs.example_lines()
    while tally.tried < count:
        session, client, data = Session(), Client(), b''
        try:
            play_examples(draw, session, client, examples, 12)
            for number in range(min(60, count - tally.tried)):
                name, data = make()
                play_line(session, client, tally, name, data)
                if number % 5 == 0:
                    check_all(session, client, data)
                    play_examples(draw, session, client, examples, 1)
            check_all(session, client, data)
            session.close(data)
        finally:
            session.stop()

def lines(draw, count, tally):
    changes, examples = inputs.Changes(draw), inputs.example_lines()
    play_lines(draw, count, tally, lambda: ('a line', changes.changed(draw.choice(examples), examples).replace(b'\n', b' ')))

# ---- files

def play_file(each, show, journal, client, tally, data, name='a file'):
    before = journal.held()
    status, text, kind = reading.end_of_merge(client, data)
    got, out, micros, wall, extra, peak = each.run(data)
    tally.count(kind, name, len(data), micros, wall, extra, peak, data)
    wanted('a merge', data, got == status and out == text.encode('utf-8', 'surrogatepass'), (status, text), (got, out))
    wanted('a journal after a refused file', data, status == 0 or journal.held() == before)
    if status == 0 and tally.tried % 3 == 1:
        wanted('what is kept', data, show.run()[:2] == (0, client.shown().encode()), client.shown())

def merged_files(folder, count, tally, make):
    """Files that are merged by runs of `merge` over a journal, which is begun anew where it has grown."""
    journal, client = Journal(folder), Client()
    each = Each(folder, 'merge', '--genesis', GENESIS, '--journal', journal.path)
    show = Each(folder, 'show', '--genesis', GENESIS, '--journal', journal.path)
    for example in inputs.example_files():
        journal.put(None, None)
        each.warm(example)
    journal.put(None, None)
    each.run(client.file([]).encode())
    try:
        while tally.tried < count:
            name, data = make()
            play_file(each, show, journal, client, tally, data, name)
            if len(journal.held()[0]) > 20000:
                journal.put(None, None)
                client = Client()
                each.run(client.file([]).encode())
    finally:
        each.stop(), show.stop()

def files(draw, count, tally):
    """One in five is merged by a run of its own, and so is what is no UTF-8; the others by lines of sessions."""
    changes, examples = inputs.Changes(draw), inputs.example_files()
    with tempfile.TemporaryDirectory() as folder:
        while tally.tried < count:
            alone, others = [], []
            for _ in range(min(1000, count - tally.tried)):
                data = changes.changed(draw.choice(examples), examples)
                (others if is_text(data) and draw.random() < 0.8 else alone).append(data)
            by_lines, by_runs = Tally(), Tally()
            play_lines(draw, len(others), by_lines, lambda: ('a file in a line', inputs.as_line(others.pop(), draw.random() < 0.5)))
            merged_files(folder, len(alone), by_runs, lambda: ('a file', alone.pop()))
            tally.join(by_lines), tally.join(by_runs)

def is_text(data):
    try:
        return bool(data.decode()) or True
    except UnicodeDecodeError:
        return False

# ---- journals

def example_journals(draw, folder):
    """Journals of the example lines, with and without compactions."""
    told, found = inputs.example_lines(), []
    journal = Journal(folder)
    for number in range(24):
        journal.put(None, None)
        for _ in range(draw.choice((1, 1, 2, 3))):
            text = b'\n'.join(draw.sample(told, draw.choice((1, 5, 20, 60))) + [b'{"op":"compact"}'] * draw.choice((0, 1))) + b'\n'
            done = subprocess.run([PROGRAM, 'session', '--genesis', GENESIS, '--journal', journal.path], input=text, stdout=subprocess.DEVNULL, stderr=subprocess.DEVNULL, timeout=LIMIT)
            wanted('a session', text, done.returncode == 0, done.returncode)
        found.append(journal.held())
    return [(first or b'', second or b'') for first, second in found]

def journals(draw, count, tally):
    changes = inputs.Changes(draw)
    changes.ways = changes.kind_ways = [changes.flip, changes.flip, changes.put, changes.drop, changes.cut, changes.double, changes.splice, changes.swap]
    with tempfile.TemporaryDirectory() as folder:
        examples, journal = example_journals(draw, folder), Journal(folder)
        parts = [it for pair in examples for it in pair if it]
        each = Each(folder, 'show', '--genesis', GENESIS, '--journal', journal.path)
        for pair in examples + [(b'\x01VK', b''), (b'\x01' + reading.MAGIC + b'\x01' * 40, b''), (b'', b'')]:
            journal.put(*pair)
            each.warm()
        try:
            while tally.tried < count:
                first, second = draw.choice(examples)
                which = draw.choice((1, 1, 1, 2, 2, 3))
                first = changes.changed(first, parts, ('edge', 'edge', 'edge')) if which & 1 else first
                second = changes.changed(second, parts, ('edge', 'edge', 'edge')) if which & 2 else second
                if draw.random() < 0.05:
                    first, second = second, first
                play_journal(each, journal, tally, first, second)
        finally:
            each.stop()

def play_journal(each, journal, tally, first, second, name='a journal'):
    journal.put(first, second)
    status, text = reading.opened(first, second, GENESIS)
    got, out, micros, wall, extra, peak = each.run()
    kind = 'read, shown' if status == 0 else 'genesis differs' if status == 7 else 'damaged, ' + ('end' if text.endswith('end\n') else 'a byte')
    tally.count(kind, name, len(first) + len(second), micros, wall, extra, peak, first + second)
    data = first + b' | ' + second
    wanted('a journal', data, got == status and out == text.encode(), (status, text), (got, out))
    wanted('the files of a journal', data, journal.held() == (reading.after_opening(first, second) if status == 0 else first, second), journal.held())

# ---- servers

class Server:
    """Takes connections one after another in a thread, reads a request of each, and says what a function of it gives."""

    def __init__(self, say):
        self.say, self.listening = say, socket.create_server(('127.0.0.1', 0), backlog=128)
        self.url = 'http://127.0.0.1:%d' % self.listening.getsockname()[1]
        threading.Thread(target=self.run, daemon=True).start()

    def run(self):
        while True:
            try:
                link, _ = self.listening.accept()
            except OSError:
                return
            with link:
                link.settimeout(30)
                try:
                    self.serve(link)
                except OSError:
                    pass

    def serve(self, link):
        held = b''
        while True:
            head, mark, body = held.partition(b'\r\n\r\n')
            length = re.search(rb'(?i)\r\ncontent-length: *(\d+)', head)
            if mark and len(body) >= (int(length[1]) if length else 0):
                break
            piece = link.recv(65536)
            if not piece:
                return
            held += piece
        method, target, _ = head.split(b'\r\n')[0].decode().split(' ')
        link.sendall(self.say(method, target, body))
        link.shutdown(socket.SHUT_WR)
        while link.recv(65536):
            pass

    def stop(self):
        self.listening.close()

# ---- responses of a signing service

def signatures(draw, count, tally, fixed=()):
    """Sessions of 400 blocks each, whose signing service answers so."""
    changes, examples, said = inputs.Changes(draw), inputs.example_signatures(), [b'']
    server, left = Server(lambda method, target, body: said[0]), list(fixed)
    key = '0x' + '1' * 96
    try:
        while tally.tried < count:
            session = Session('--signer', server.url)
            try:
                said[0] = inputs.as_json({'data': [{'status': 'imported'}]})
                session.answer(compact({'op': 'activate', 'pubkey': key}).encode())
                for slot in range(min(401, count - tally.tried + 1)):
                    root = '0x%064x' % (slot + 1)
                    name, said[0] = ('a response', examples[0]) if slot == 0 else left.pop(0) if left else ('a response', changes.changed(draw.choice(examples), examples, ('field',)))
                    answer = reading.signed_by(said[0], root)
                    session.begin(said[0])
                    got = session.answer(compact({'op': 'block', 'pubkey': key, 'slot': str(slot), 'signing_root': root}).encode())
                    session.end(tally if slot else Tally(), name_of(answer), name, len(said[0]))
                    # (the service has 3 seconds to answer)
                    is_late = session.took > 2.5 and got == b'{"answer":"unsigned","cause":"fault"}'
                    tally.late['responses'] += is_late
                    wanted('an answer', said[0], is_late or got == compact(answer).encode(), answer, got)
                session.close(said[0])
            finally:
                session.stop()
    finally:
        server.stop()

# ---- answers of beacon nodes

class Liars:
    """Nodes of which the last one does not lie. Each is asked a question after the other until one gives what can be read. Where the machine is
    so busy that a node has passed its limit it is set aside, so in the rest of that run the order in which nodes are asked is not compared."""

    def __init__(self, draw, count, tally):
        self.draw, self.count, self.tally, self.changes = draw, count, tally, inputs.Changes(draw)
        self.examples, self.serving, self.differs = inputs.example_answers(), None, []
        # (an exchange may last 60 seconds; of the questions whether nodes are syncing each has a share of 2, and there is one share more than nodes)
        self.longest, self.share, self.together = 50, 1.7 / (count + 1), 1.7
        self.compared = [name for name, _ in PATHS if name not in ('syncing', 'version')]
        self.server = Server(self.say)

    def begin(self):
        self.plain = inputs.plain_answers(int(time.time()) - 12 * SLOT - 3)
        self.last, self.passed, self.before, self.of_syncing, self.is_late, self.of_share = {}, set(), None, {}, False, 0
        return ['%s/%d' % (self.server.url, number) for number in range(self.count)]

    def next_after(self, number):
        return next((it for it in range(number + 1, self.count) if it not in self.passed), None)

    def check(self, question, number):
        """The node that is asked is the next one, where the answer before could not be read, and else the first."""
        at, was_read, data = self.last.get(question, (-1, True, b''))
        due = self.next_after(-1 if was_read else at)
        if number != due and not self.is_late and not (number == 0 and question in ('genesis', 'fork')):
            self.differs.append('node %d is asked for %s after node %d, whose answer can%s be read\ninput: %r' % (number, question, at, '' if was_read else 'not', data[:2000]))

    def check_last(self):
        """Once the run is over: the last answer to each question could be read, as the next node is asked otherwise."""
        for question in self.compared:
            at, was_read, data = self.last.get(question, (-1, True, b''))
            if not was_read and not self.is_late:
                self.differs.append('no node is asked for %s after node %d, whose answer cannot be read\ninput: %r' % (question, at, data[:2000]))

    def note(self, serving):
        """What the answer before has cost, and how long its exchange took, now that the next request is there."""
        now = time.monotonic()
        if self.before:
            question, kind, name, size = self.before
            if serving and serving.begun:
                serving.end(self.tally if name else Tally(), kind, name, size)
            self.hurry(question, now - self.asked)
        self.before, self.asked = None, now

    def hurry(self, question, took):
        """Whether a node may have passed its limit by now."""
        if question == 'syncing':
            self.of_share += took
        self.is_late = self.is_late or took > (self.share if question == 'syncing' else self.longest) or self.of_share > self.together

    def say(self, method, target, body):
        serving = self.serving
        try:
            self.note(serving)
            data = self.said(target)
            if serving:
                serving.begin(data)
            return data
        except FAILURES as failure:
            self.differs.append(str(failure) or repr(failure))
            return b''

    def said(self, target):
        number, path = int(target.split('/')[1]), target.partition('?')[0]
        question = next((name for name, mark in PATHS if mark in path), None)
        if question is None:
            return inputs.response(200, b'')
        epoch = int(path.split('/')[-1]) if question in ('proposer', 'attester', 'liveness') else 0
        if question in self.compared:
            self.check(question, number)
        name, data, is_read = self.answered(question, epoch, number)
        self.last[question] = number, is_read, data
        if question == 'syncing':
            # (the loop and each lane ask it, and a node says the same to all)
            self.of_syncing[number] = data
            if is_read and json.loads(reading.response_of(data)[1])['data']['is_syncing']:
                self.passed.add(number)
        self.before = question, ('read, ' if is_read else 'unreadable ') + question, name, len(data)
        return data

    def answered(self, question, epoch, number):
        """The name of an answer, none where it is no input; the answer; and whether it can be read."""
        data = self.of_syncing.get(number) if question == 'syncing' else None
        data = data or self.answer(question, epoch, number)
        return 'an answer to ' + question if number < self.count - 1 else None, data, reading.is_readable(question, epoch, data)

    def truth(self, question, epoch):
        plain = json.dumps(self.plain[question]).encode()
        return inputs.response(200, plain.replace(b'"slot": "%d"' % SLOT, b'"slot": "%d"' % (32 * epoch + SLOT % 32)) if epoch else plain)

    def answer(self, question, epoch, number):
        if number == self.count - 1:
            return self.truth(question, epoch)
        examples = self.examples.get(question, []) + [json.dumps(self.plain[question]).encode()]
        while True:
            form = self.draw.choice((inputs.response, inputs.response, inputs.chunked))
            data = self.changes.changed(form(200, self.draw.choice(examples)), examples, ('field',))
            if question != 'genesis' or not reading.is_readable(question, epoch, data):
                return data

class OneLiar(Liars):
    """Two nodes, of which the first says these bodies to some questions, and else does not lie."""

    def __init__(self, draw, tally, name, bodies):
        super().__init__(draw, 2, tally)
        self.name, self.compared = name, list(bodies)
        # (they are read before the run, as that takes long)
        self.fixed = {question: inputs.response(200, body) for question, body in bodies.items()}
        self.readable = {question: reading.is_readable(question, SLOT // 32, data) for question, data in self.fixed.items()}

    def check_last(self):
        super().check_last()
        self.differs += ['no node is asked for ' + question for question in self.compared if question not in self.last]

    def answered(self, question, epoch, number):
        if number == 0 and question in self.fixed and epoch in (0, SLOT // 32):
            return '%s, an answer to %s' % (self.name, question), self.fixed[question], self.readable[question]
        return None, self.truth(question, epoch), True

def play_turn(liars, signer, journal, watch):
    """A run of one turn, whose nodes these are."""
    journal.put(None, None)
    session = Session('--journal', journal.path)
    session.answer(compact({'op': 'activate', 'pubkey': KEY}).encode())
    session.close(b'')
    nodes = liars.begin()
    serving = Living(['serve', '--genesis', GENESIS, '--journal', journal.path, '--signer', signer.url, '--listen', '127.0.0.1:%d' % free_port(), '--token', TOKEN, '--quiet',
                      '--slots', '1', '--connections', '0', '--lanes', '1', '--timeout', '60'] + watch + nodes, stdout=subprocess.PIPE, stderr=subprocess.DEVNULL)
    liars.serving, timer = serving, serving.limited(TURN_LIMIT)
    try:
        out = serving.process.communicate()[0]
    finally:
        timer.cancel()
        liars.serving = None
        serving.stop()
    liars.check_last()
    liars.tally.late['runs of serve'] += liars.is_late
    wanted('a run of serve', serving.data, serving.process.returncode == 0 and not liars.differs, serving.ended(), out, *liars.differs[:1])

def answers(draw, count, tally):
    """Runs of one turn, each with 16 nodes."""
    signer = Server(lambda method, target, body: inputs.as_json({'signature': '0x' + 'ab' * 96}))
    liars = Liars(draw, 16, tally)
    with tempfile.TemporaryDirectory() as folder:
        while tally.tried < count:
            play_turn(liars, signer, Journal(folder), ['--watch'] * draw.choice((0, 0, 1)))
    signer.stop(), liars.server.stop()

def fixed_answers(draw, count, tally, fixed):
    """A run of one turn for each of these, whose first node says so."""
    signer = Server(lambda method, target, body: inputs.as_json({'signature': '0x' + 'ab' * 96}))
    with tempfile.TemporaryDirectory() as folder:
        for name, bodies in fixed:
            liars = OneLiar(draw, tally, name, bodies)
            play_turn(liars, signer, Journal(folder), [])
            liars.server.stop()
    signer.stop()

def responses(draw, count, tally):
    """Half of them of a signing service, half of beacon nodes."""
    by_signer, by_nodes = Tally(), Tally()
    try:
        signatures(draw, count // 2, by_signer)
        answers(draw, count // 2, by_nodes)
    finally:
        tally.join(by_signer), tally.join(by_nodes)

# ---- requests of the Keymanager API

def free_port():
    with socket.socket() as free:
        free.bind(('127.0.0.1', 0))
        return free.getsockname()[1]

LISTS = inputs.request('GET', b'')

class Serving(Living):
    """A `serve` that ends by the number of its connections, or, where none is given, by SIGTERM alone."""

    def __init__(self, journal, node, signer, connections=None):
        self.port, self.connections = free_port(), connections
        numbers = ['--slots', '0', '--connections', str(connections)] if connections else []
        super().__init__(['serve', '--genesis', GENESIS, '--journal', journal.path, '--signer', signer.url, '--listen', '127.0.0.1:%d' % self.port, '--token', TOKEN, '--quiet', *numbers, node.url],
                         stdout=subprocess.PIPE, stderr=subprocess.DEVNULL)
        listed = b''
        for _ in range(600):
            try:
                listed = self.exchange(LISTS)
                break
            except OSError:
                time.sleep(0.05)
        if not listed.startswith(b'HTTP/1.1 200 '):
            self.fail('a list of keys', listed)

    def exchange(self, data):
        with socket.create_connection(('127.0.0.1', self.port), timeout=60) as link:
            try:
                link.sendall(data)
                link.shutdown(socket.SHUT_WR)
            except OSError:
                pass
            held = b''
            while piece := link.recv(65536):
                held += piece
        return held

    def reply(self, data):
        """The status and the body of the reply to these bytes."""
        timer = self.limited()
        try:
            held = self.exchange(data)
        except OSError as fault:
            self.fail('a reply', fault)
        finally:
            timer.cancel()
        held = held.removeprefix(b'HTTP/1.1 100 Continue\r\n\r\n')
        head, _, body = held.partition(b'\r\n\r\n')
        status = re.match(rb'HTTP/1\.1 (\d{3}) ', head)
        return (int(status[1]) if status else None), body

    def finish(self, client):
        """Has it end, by its last connection, which lists the keys, or by SIGTERM, which the system ends it by."""
        if self.process.poll() is not None:
            self.fail('a process that lives')
        if self.connections:
            status, body = reading.reply_to(client, LISTS)
            got = self.reply(LISTS)
            wanted('the keys in the end', self.data, got == (status, compact(body).encode()), (status, body), got)
        else:
            self.process.terminate()
        timer = self.limited()
        try:
            out = self.process.communicate()[0]
        finally:
            timer.cancel()
        due = 0 if self.connections else -signal.SIGTERM
        wanted('the end of serve', self.data, self.process.returncode == due and out == b'', self.ended(), out)

def play_request(serving, journal, client, tally, name, data):
    before = journal.held()
    status, body = reading.reply_to(client, data)
    serving.begin(data)
    got = serving.reply(data)
    serving.end(tally, 'read, answered' if status == 200 else re.sub(':.*| differ.*', '', body['message']), name, len(data))
    wanted('a reply', data, got == (status, compact(body).encode('utf-8', 'surrogatepass')), (status, body), got)
    wanted('a journal after a refused request', data, status == 200 or journal.held() == before)

def requests(draw, count, tally, fixed=()):
    """300 to a `serve`. Every second one of these ends by the number of its connections: those of the inputs, the list before them and the one after them."""
    changes, examples, left, batches = inputs.Changes(draw), inputs.example_requests(), list(fixed), 0
    node, signer = Server(inputs.quiet_node), Server(inputs.holding_signer)
    with tempfile.TemporaryDirectory() as folder:
        journal = Journal(folder)
        while tally.tried < count:
            journal.put(None, None)
            batch = [left.pop(0) if left else ('a request', changes.changed(draw.choice(examples), examples, ('field', 'field'))) for _ in range(min(300, count - tally.tried))]
            batch = [(name, data) for name, data in batch if data.strip(b'\r\n')]
            serving, client = Serving(journal, node, signer, len(batch) + 2 if batches % 2 == 0 else None), Client()
            try:
                for name, data in batch:
                    play_request(serving, journal, client, tally, name, data)
                serving.finish(client)
            finally:
                serving.stop()
            batches += 1
    node.stop(), signer.stop()

# ---- inputs near the limits

def large(draw, count, tally):
    """Each of these once, of LARGE bytes (4 MiB)."""
    size = int(os.environ.get('LARGE', 4 << 20))
    for name, text in inputs.large_texts(size).items():
        play_all(tally, play_lines, limits.lines(text, name))
        play_all(tally, requests, limits.requests(text, name))
        play_all(tally, signatures, limits.responses(text, name))
    play_all(tally, play_lines, [('a file of too many keys in a line', inputs.as_line(limits.file_of_keys(reading.KEY_LIMIT + 1), True))])
    play_all(tally, requests, [('a body with a file of too many keys', limits.import_of_keys(reading.KEY_LIMIT + 1))])
    play_all(tally, requests, limits.heads())
    play_all(tally, signatures, ((name.replace('head', 'response'), data.replace(b'GET /eth/v1/keystores HTTP/1.1', b'HTTP/1.1 200 OK')) for name, data in limits.heads() if 'head' in name))
    play_all(tally, signatures, limits.signatures())
    play_all(tally, fixed_answers, limits.answers(size, inputs.plain_answers(0), SLOT // 32))
    with tempfile.TemporaryDirectory() as folder:
        play_all(tally, merged_files, limits.files(size), folder)
    with tempfile.TemporaryDirectory() as folder:
        journal = Journal(folder)
        each = Each(folder, 'show', '--genesis', GENESIS, '--journal', journal.path)
        for pair in example_journals(draw, folder):
            journal.put(*pair)
            each.warm()
        for name, data in limits.journals(size):
            part = Tally()
            try:
                play_journal(each, journal, part, data, b'', name)
            except FAILURES as failure:
                part.differs.append('%s: %r' % (name, failure))
            tally.join(part)
        each.stop()

def play_all(tally, player, named, folder=None):
    """Plays these by a player of a kind, each in a tally of its own, so that one that differs does not keep the others from being played."""
    for name, data in named:
        part, given = Tally(), [(name, data)]
        try:
            if player is play_lines:
                play_lines(random.Random(1), 1, part, given.pop)
            elif player is merged_files:
                merged_files(folder, 1, part, given.pop)
            else:
                player(random.Random(1), 1, part, given)
        except FAILURES as failure:
            part.differs.append('%s: %r' % (name, failure))
        tally.join(part)

# ---- all of it

KINDS = {'files': files, 'lines': lines, 'requests': requests, 'responses': responses, 'journals': journals, 'large': large}

def play(job):
    kind, count, seed = job
    tally = Tally()
    try:
        KINDS[kind](random.Random(seed), count, tally)
    except FAILURES as failure:
        tally.differs.append(str(failure) or repr(failure))
    return tally

def main():
    count, seed, most = int(sys.argv[3]), int(sys.argv[4]), int(os.environ.get('JOBS', '2'))
    failed = False
    with multiprocessing.Pool(most) as pool:
        for kind in sys.argv[5:] or KINDS:
            tally, jobs = Tally(), 1 if kind == 'large' else most
            for part in pool.map(play, [(kind, -(-count // jobs), '%s %d %d' % (kind, seed, job)) for job in range(jobs)], 1):
                tally.join(part)
            print(kind)
            print('\n'.join(tally.told()), flush=True)
            for differs in tally.differs:
                print('  DIFFERS ' + differs, flush=True)
            failed = failed or bool(tally.differs or tally.over)
    sys.exit(failed)

if __name__ == '__main__':
    main()
