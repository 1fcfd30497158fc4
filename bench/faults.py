"""The rows of `faults.sh`: the built program, of whose outside calls one goes wrong. A row says what came: the status, the last line, how the keys stand
when the journal is opened, and what the run's last proposal is answered when it comes again, with the same root, and over a copy of the journal with
another one."""
import resource, signal, struct
from faulty_runs import *

PLACES = ['unasked', 'before', 'head', 'body', 'after']

# ---- a proxy that cuts a connection

class Proxy:
    """Passes each connection on to a server, but cuts that of one number at a place: `unasked` it is reset, and the request is not passed on; else with the
    answer, of which nothing comes (`before`), half of the head, the head and half of the body, or all (`after`)."""

    def __init__(self, url):
        self.server = ('127.0.0.1', int(url.rsplit(':', 1)[1]))
        self.listening = socket.create_server(('127.0.0.1', 0), backlog=128)
        self.url = 'http://127.0.0.1:%d' % self.listening.getsockname()[1]
        self.begin()
        threading.Thread(target=self.take, daemon=True).start()

    def begin(self, number=None, place='after', ahead=None):
        """From now on this connection is cut there. The moments of all are noted by the clock that is ahead by what this file has, where one is named."""
        self.number, self.place, self.ahead, self.asked, self.moments = number, place, ahead, [], []

    def now(self):
        """The moment that the program's clock shows."""
        if self.ahead is None:
            return time.time()
        with open(self.ahead, 'rb') as file:
            return time.time() + int.from_bytes(file.read(), sys.byteorder, signed=True) / 10 ** 9

    def take(self):
        while True:
            link, _ = self.listening.accept()
            self.moments.append(self.now())
            self.asked.append('')
            threading.Thread(target=self.pass_on, args=(link, len(self.asked) - 1), daemon=True).start()

    def pass_on(self, link, number):
        place = self.place if number == self.number else 'after'
        with link:
            try:
                request = read_request(link)
                self.asked[number] = named(request)
                if place == 'unasked':
                    link.setsockopt(socket.SOL_SOCKET, socket.SO_LINGER, struct.pack('ii', 1, 0))
                else:
                    link.sendall(front_of(self.answer(request), place))
            except OSError:
                pass

    def answer(self, request):
        with socket.create_connection(self.server) as server:
            server.sendall(request)
            came = b''
            while piece := server.recv(65536):
                came += piece
        return came

def named(request):
    """What a request asks, in a few words."""
    line = request.split(b' HTTP/')[0].decode().split('?')[0]
    kind = json.loads(request.partition(b'\r\n\r\n')[2])['type'] if SIGN in line else ''
    return (line.split(SIGN)[0] + ' ' + kind).strip()

def front_of(answer, place):
    head, _, body = answer.partition(b'\r\n\r\n')
    return {'before': b'', 'head': head[:len(head) // 2], 'body': head + b'\r\n\r\n' + body[:len(body) // 2], 'after': answer}[place]

to_signer, to_node = Proxy(signer.url), Proxy(node.url)

def cause_of(place):
    """A link that fails is a fault; an answer that ends before it is whole is one that cannot be read."""
    return 'fault' if place == 'unasked' else 'bad_answer'

def line_of(proxy, number, place):
    """What standard error has of the connection that was cut there. Of an answer to an import only how many bytes came is reported. An answer to what is
    posted has no body, so that it is whole after its head."""
    asked = proxy.asked[number]
    if place == 'after' or place == 'body' and asked.startswith('POST /eth/v1/beacon/'):
        return []
    count = '0 bytes' if asked == 'POST /eth/v1/keystores' else ''
    return [r'127\.0\.0\.1:%s: %s\S*: ' % (proxy.url.rsplit(':', 1)[1], ' '.join(asked.split(' ')[:2])) + (r'Connection reset by peer \(os error 104\)' if place == 'unasked' else 'unreadable: ' + count)]

def session_cut(name, number, place):
    row = Row('session, call %d of the service, %s' % (number, place))
    to_signer.begin(number, place)
    status, lines, told = run(words(name, 'session', to_signer.url, *FORKED), lines_of(REQUESTS))
    came, of_service = [short(line) for line in lines], signer.take()
    row.name += ' (%s)' % to_signer.asked[number]
    answers, opened, proposals = USUAL, [STATES[7]], [IS_CLOSED]
    if place != 'after':
        answers, opened, proposals = without(number, cause_of(place)), [states_without(number)], [again_without(number)]
    row.want('status', status, 0)
    row.want('answers', came, answers)
    row.says(told, *line_of(to_signer, number, place))
    row.answers_fit(REQUESTS, lines, of_service)
    row.ended(status, came)
    row.opens(name, *opened)
    row.proposed_again(name, LAST, *proposals, asked=of_service)
    return row

def serve_cut(name, who, number, place):
    row = Row('serve, call %d of the %s, %s' % (number, who, place))
    genesis, env = begin_serving(name), driven(name)
    to_signer.begin(*((number, place) if who == 'service' else ()))
    to_node.begin(*((number, place, env['YEAR_CLOCK']) if who == 'node' else ()))
    status, lines, told = run(serve_words(name, to_signer.url, to_node.url, 2, 0), env=env)
    asked = (to_node if who == 'node' else to_signer).asked[number]
    row.name += ' (%s)' % asked
    slot = 1 if who == 'node' and to_node.moments[number] >= genesis + SLOT else 0
    if who == 'node' and number in (1, 2) and place != 'after':
        row.want('status', status, 10)
        row.want('lines', lines, ['validator: no node: ' + ('fault' if place == 'unasked' else 'unreadable')])
        opened = [STATES[2]]
    else:
        row.want('status', status, 0)
        row.want('lines', lines, *due_with(asked, slot, place))
        opened = served_states(lines)
    row.says(told, *reported(to_node if who == 'node' else to_signer, who, number, place))
    row.ended(status, lines)
    of_service = signer.take()
    posts_fit(row, lines, node.take(), of_service)
    row.opens(name, *opened)
    row.voted_again(name, of_service)
    return row

def reported(proxy, who, number, place):
    """The same of a run of `serve`. The first call of the node looks at its chain, before anything is asked of it: an answer that cannot be read is no fault there."""
    return [] if (who, number) == ('node', 0) and place != 'unasked' else line_of(proxy, number, place)

def delete_cut(name, who, number, place):
    row = Row('DELETE, call %d of the %s, %s' % (number, who, place))
    begin_deletion(name)
    to_signer.begin(*((number, place) if who == 'service' else ()))
    to_node.begin(*((number, place) if who == 'node' else ()))
    status, lines, reply, told = answer_once(name, to_signer.url, to_node.url, delete_request())
    row.name += ' (%s)' % (to_node if who == 'node' else to_signer).asked[number]
    row.ended(status, lines)
    cut = place != 'after' and (who, number) != ('node', 0)
    if who == 'node' and cut:
        row.want('status', status, 10)
        row.want('reply', entries(reply), [])
    else:
        row.want('status', status, 0)
        row.want('reply', entries(reply), ['error signer: ' + cause_of(place).replace('_', ' ')] if cut else ['deleted'])
        row.tell('reply ' + ' '.join(entries(reply)))
    failed = [r'Keymanager API: %s: error: signer: %s' % (key(1), cause_of(place).replace('_', ' '))] if cut and who == 'service' else []
    row.says(told, *reported(to_node if who == 'node' else to_signer, who, number, place), *failed)
    row.reply_fits(reply)
    row.opens(name, VOTE_KEPT if cut else VOTE_CLOSED)
    row.voted_again(name)
    return row

def caller_leaves(name, place):
    """The caller of the Keymanager API leaves; the program is ended where it goes on to wait for a connection."""
    row = Row('DELETE, its caller leaves, %s' % place)
    begin_deletion(name)
    whole = delete_request()
    head = whole.partition(b'\r\n\r\n')[0]
    asked = {'before': b'', 'head': head[:len(head) // 2], 'body': whole[:-10], 'after': whole}[place]
    child = subprocess.Popen(serve_words(name, signer.url, node.url, 0, 1), stdout=subprocess.PIPE, stderr=subprocess.PIPE, text=True)
    while child.poll() is None:
        try:
            with socket.create_connection(('127.0.0.1', port)) as link:
                link.sendall(asked)
            break
        except OSError:
            time.sleep(0.02)
    try:
        out, told = child.communicate(timeout=15)
        row.want('status', child.returncode, 0)
        row.ended(child.returncode, out.splitlines())
    except subprocess.TimeoutExpired:
        child.terminate()
        out, told = child.communicate()
        row.tell('status none, it waits for another connection')
        row.want('waits', place, 'before', 'head', 'body')
    row.want('lines', out.splitlines(), [])
    cut = [(r'Keymanager API: DELETE /eth/v1/keystores: 400 [ -~]*', 0, 1)] if place in ('head', 'body') else []
    row.wrong.extend(amiss(told.splitlines(), cut))
    row.opens(name, VOTE_CLOSED if place == 'after' else VOTE_KEPT)
    row.voted_again(name)
    return row

# ---- a full disk

FILE_IS_FULL = r': File too large \(os error 27\)'

def limited(limit, is_killed):
    """What limits each file that the program writes to this many bytes; a write past it fails, or kills the program."""
    def begin():
        signal.signal(signal.SIGXFSZ, signal.SIG_DFL if is_killed else signal.SIG_IGN)
        resource.setrlimit(resource.RLIMIT_FSIZE, (limit, limit))
    return {'preexec_fn': begin, 'restore_signals': False}

def session_full(name, limit, is_killed):
    row = Row('session, %s at byte %d' % ('killed' if is_killed else 'full disk', limit))
    status, lines, told = run(words(name, 'session', signer.url, *FORKED), lines_of(REQUESTS), **limited(limit, is_killed))
    came, of_service = [short(line) for line in lines if line.startswith('{')], signer.take()
    done = len(came) if status == 0 or is_killed else max(0, len(came) - 1)
    row.want('status', status, *([0] if done == 6 else [-signal.SIGXFSZ] if is_killed else [5]))
    row.want('answers', came[:done], USUAL[:done])
    if status == 5:
        row.want('last line', lines[-1], 'validator: disk fault')
        row.want('last answer', 'disk' in came[-1] if came else True, True)
        row.tell('answered ' + (came[-1] if came else 'nothing'))
    row.says(told, *[re.escape(os.path.join(folder, name + '.a')) + FILE_IS_FULL] * (status == 5))
    row.answers_fit(REQUESTS, lines, of_service)
    row.ended(status, lines)
    first, last = STEPS[done], STEPS[min(done + (status != 0), 6)]
    opened = row.opens(name, *STATES[first:last + 1])
    row.proposed_again(name, LAST, *([AGAIN[STATES.index(opened)]] if opened in STATES else []), asked=of_service)
    return row

FRAMES = [103, 103 + 95, 103 + 95 + 103]

def serve_full(name, limit):
    """The disk is full once the journal has this many bytes more than two activations."""
    row = Row('serve, full disk after %d bytes' % limit)
    begin_serving(name)
    size = os.path.getsize(os.path.join(folder, name + '.a'))
    status, lines, told = run(serve_words(name, signer.url, node.url, 2, 0), env=driven(name), **limited(size + limit, False))
    fits = sum(limit >= frame for frame in FRAMES)
    results = [(slot, kind, 'sent' if at < fits else 'refused disk') for at, (slot, kind, _) in enumerate(SERVED)]
    wanted = due_lines(other={(slot, kind): result for slot, kind, result in results})
    row.want('status', status, 5 if fits < 3 else 0)
    row.want('lines', lines, (wanted[:1] if fits == 0 else wanted) + ['validator: disk fault'] * (fits < 3))
    row.says(told, *[re.escape(os.path.join(folder, name + '.a')) + FILE_IS_FULL] * (fits < 3))
    row.ended(status, lines)
    of_service = signer.take()
    posts_fit(row, lines, node.take(), of_service)
    row.opens(name, served_states(lines)[0])
    row.voted_again(name, of_service)
    return row

# ---- standard streams

def stream_closed(name, command, stream):
    row = Row('%s, %s closed' % (command, 'output' if stream else 'input'))
    node.set(genesis_time=int(time.time()), blocks={}, votes={})
    line = {'session': words(name, 'session', signer.url, *FORKED), 'merge': words(name, 'merge', None), 'show': words(name, 'show', None), 'serve': serve_words(name, signer.url, node.url, 0, 0)}[command]
    file = {'data': [{'pubkey': key(0), 'signed_attestations': [], 'signed_blocks': [{'slot': '7'}]}], 'metadata': METADATA}
    text = {'session': lines_of(REQUESTS), 'merge': json.dumps(file)}.get(command, '')
    status, lines, told = run(['bash', '-c', 'exec "$@" %s' % ('>&-' if stream else '<&-'), 'bash'] + line, text)
    row.want('standard error', told.splitlines(), ['validator: standard output is closed'] if stream else [])
    row.want('status', status, 4 if stream else 12 if command == 'merge' else 0)
    row.want('lines', lines, ['validator: file refused: json'] if command == 'merge' and not stream else [])
    row.want('files', [end for end in 'ab' if os.path.exists(os.path.join(folder, name + '.' + end))], [] if stream else ['a', 'b'])
    row.ended(status, lines)
    row.opens(name, [])
    row.want('asked of the service', signer.take(), [])
    return row

def reader_leaves(name, count):
    """Whoever reads the answers leaves after this many of them, before the next request is sent, which is done and not told."""
    row = Row('session, its reader leaves after %d answers' % count)
    child = subprocess.Popen(words(name, 'session', signer.url, *FORKED), stdin=subprocess.PIPE, stdout=subprocess.PIPE, stderr=subprocess.PIPE)
    lines = []
    for request in REQUESTS[:count]:
        child.stdin.write(lines_of([request]).encode())
        child.stdin.flush()
        lines.append(child.stdout.readline().decode())
    child.stdout.close()
    try:
        child.stdin.write(lines_of(REQUESTS[count:]).encode())
        child.stdin.close()
    except OSError:
        pass
    told = child.stderr.read().decode()
    child.wait(timeout=LIMIT)
    row.want('status', child.returncode, 4 if count < 6 else 0)
    row.says(told, *[r'output: Broken pipe \(os error 32\)'] * (count < 6))
    row.tell('status %d' % child.returncode)
    of_service, opened = signer.take(), STEPS[min(count + 1, 6)]
    row.answers_fit(REQUESTS, lines, of_service)
    row.opens(name, STATES[opened])
    row.proposed_again(name, LAST, AGAIN[opened], asked=of_service)
    return row

# ---- all rows

def measure():
    """How many connections runs without a fault make, and how long the file of a session becomes."""
    begin_serving('measured')
    to_signer.begin(), to_node.begin()
    status, lines, told = run(serve_words('measured', to_signer.url, to_node.url, 2, 0), env=driven('measured'))
    wanted('a run without a fault: status %d, %s %s' % (status, lines, told), status == 0 and lines == due_lines())
    counts = {'node': len(to_node.asked), 'service': len(to_signer.asked)}
    to_signer.begin()
    status, lines, told = run(words('sized', 'session', to_signer.url, *FORKED), lines_of(REQUESTS))
    wanted('a session without a fault: status %d, %s %s' % (status, lines, told), status == 0 and [short(line) for line in lines] == USUAL)
    return {**counts, 'session': len(to_signer.asked), 'size': os.path.getsize(os.path.join(folder, 'sized.a')), 'step': int(os.environ.get('STEP', '1'))}

def rows_of(counts):
    rows = []
    def add(group, row_of, *of):
        rows.append((group, lambda name: row_of(name, *of)))
    for place in PLACES:
        for who in ('node', 'service'):
            for number in range(counts[who]):
                add('serve, a call of the %s cut' % who, serve_cut, who, number, place)
        for number in range(counts['session']):
            add('session, a call of the service cut', session_cut, number, place)
        for who, number in (('service', 0), ('node', 0), ('node', 1), ('node', 2)):
            add('DELETE, a call cut', delete_cut, who, number, place)
    for place in ('before', 'head', 'body', 'after'):
        add('DELETE, its caller leaves', caller_leaves, place)
    for limit in (0, 50, 102, 103, 150, 197, 198, 250, 300, 301):
        add('serve, full disk', serve_full, limit)
    for is_killed in (False, True):
        for limit in range(0, counts['size'] + 1, counts['step']):
            add('session, killed at a byte' if is_killed else 'session, full disk', session_full, limit, is_killed)
    for stream in (1, 0):
        for command in ('session', 'merge', 'show', 'serve'):
            add('a closed stream', stream_closed, command, stream)
    for count in range(7):
        add('session, its reader leaves', reader_leaves, count)
    return rows

deal(__file__, measure, rows_of, True)
