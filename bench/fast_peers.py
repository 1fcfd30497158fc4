"""A beacon node and a signing service that take little time themselves (fast_peers.c), for `serve.sh aggregates`. What they answer is what stand_ins.py
answers: it is asked before each run, and what it says is handed over as a table. The client next to them (fast_client.c) is as plain."""
import io, json, os, socket, struct, subprocess, time
from stand_ins import *

def table_of(delay, lines):
    return ''.join('\t'.join(map(str, line)) + '\n' for line in [('delay', round(delay * 1e9)), *lines])

def signer_table(state):
    return table_of(state['delay'], [('sign', SIGN + '*')])

def rows_of(answer):
    """What stands before and after the rows of an answer, and the rows."""
    front, back = json.dumps({**answer, 'data': []}).split('[]')
    return front + '[', ']' + back, [json.dumps(row) for row in answer['data']]

def node_table(due):
    """What `tell` answers to all that is asked for the votes and the aggregates of one slot, which is in epoch 0."""
    if 'votes' not in due:
        return table_of(0, [])
    slot, = set(due['votes'].values())

    def told(target, body=None):
        status, answer = tell(dict(due), 'GET', target, body)
        wanted('%s is answered by %d' % (target, status), status == 200)
        return answer

    lines = []
    for epoch in range(2):
        front, back, rows = rows_of(told('/eth/v1/validator/duties/attester/%d' % epoch, list(map(str, due['votes']))))
        lines += [('list', '/eth/v1/validator/duties/attester/%d' % epoch, front, back)]
        lines += [('row', '"%s"' % json.loads(row)['validator_index'], row) for row in rows]
    front, back, rows = rows_of(told('/eth/v1/beacon/states/head/validators?' + '&'.join('id=' + key(n) for n in due['votes'])))
    lines += [('list', '/eth/v1/beacon/states/head/validators?*', front, back)]
    lines += [('row', 'id=' + json.loads(row)['validator']['pubkey'], row) for row in rows]
    plain = ['/eth/v1/beacon/genesis', '/eth/v1/beacon/states/head/fork', '/eth/v1/node/syncing', '/eth/v1/node/version', DATA + '?slot=%d&committee_index=0' % slot, VOTES, AGGREGATES,
             AGGREGATE + '?attestation_data_root=*&slot=%d' % slot, *('/eth/v1/validator/duties/proposer/%d' % epoch for epoch in range(2))]
    for target in plain:
        answer = told(target)
        lines += [('answer', target, 200, json.dumps(answer) if answer is not None else '')]
    return table_of(0, lines)

class FastServer:
    """As a `Server`: answers by what was set, and hands out what it was asked."""

    def __init__(self, table, control):
        self.table, self.control, self.state = table, control, {'delay': 0}
        self.port = int(self.heard())
        self.url = 'http://127.0.0.1:%d' % self.port

    def heard(self):
        def read(length):
            text = self.control.recv(length, socket.MSG_WAITALL)
            wanted('the fast peers ended', len(text) == length)
            return text

        length, = struct.unpack('<Q', read(8))
        return read(length) if length else b''

    def told(self, text):
        self.control.sendall(struct.pack('<Q', len(text)) + text.encode())
        return self.heard()

    def set(self, **told):
        self.state.update(told)
        self.told(self.table(self.state))

    def take(self):
        noted, requests = io.BytesIO(self.told('take')), []
        for line in noted:
            begun, ended, status, method, target, length = line.decode().split(' ')
            body = noted.read(int(length))
            requests.append(Request(int(begun) / 1e9, int(ended) / 1e9, method, target, json.loads(body) if body else None, int(status)))
        return requests

def fast_servers(path):
    """A signing service and a node, by the program at this path. It ends with this process."""
    ours, theirs = zip(*(socket.socketpair() for _ in range(2)))
    subprocess.Popen([path, *(str(link.fileno()) for link in theirs)], pass_fds=[link.fileno() for link in theirs])
    for link in theirs:
        link.close()
    return FastServer(signer_table, ours[0]), FastServer(node_table, ours[1])

def fast_client(path, requests, count, lanes):
    """When a plain client began and ended that did so many aggregates, each by these requests: a port and a text each."""
    begin, words = time.time_ns() + 10**9, []
    for number, (port, text) in enumerate(requests):
        words += [str(port), os.path.join(folder, 'request%d' % number)]
        with open(words[-1], 'wb') as file:
            file.write(text)
    told = subprocess.run([path, str(begin), str(lanes), str(count), *words], capture_output=True, text=True)
    wanted('the plain client: ' + told.stderr, told.returncode == 0)
    return begin / 1e9, int(told.stdout) / 1e9
