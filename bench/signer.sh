#!/usr/bin/env bash
# The built program with a signing service, over TCP: a small HTTP server in Python answers the signing
# call; each signature must be the server's, and each request's body must carry the type, the fork and the
# root. In the midst the server is killed and started again. It prints signatures a second next to a Python
# client and a plain socket that send the same requests to the same server, and what the service's part of a
# signature takes: the time of a session in memory with the service, less that of one whose signer is in memory.
# Usage: bench/signer.sh [BLOCKS]
set -eu
cd "$(dirname "$0")/.."
blocks="${1:-1000}"
program=crates/validator/out/validator
[ -x "$program" ] || { echo "bench/signer.sh: $program is not there: run 'rt run -- --version' in crates/validator first" >&2; exit 1; }
exec python3 - "$program" "$blocks" <<'PY'
import hashlib, http.client, json, os, signal, socket, subprocess, sys, tempfile, time

program, blocks = sys.argv[1], int(sys.argv[2])
genesis = '0x' + '5a' * 32
key = '0x' + '11' * 48
server_source = r'''
import hashlib, http.server, json, sys
class Server(http.server.ThreadingHTTPServer):
    allow_reuse_address = True
    request_queue_size = 128
class Handler(http.server.BaseHTTPRequestHandler):
    protocol_version = 'HTTP/1.1'
    def log_message(self, *args): pass
    def do_POST(self):
        body = self.rfile.read(int(self.headers['Content-Length']))
        asked = json.loads(body)
        log.write(json.dumps({'path': self.path, 'body': asked, 'text': body.decode(),
                              'headers': dict(self.headers)}) + '\n')
        log.flush()
        root = asked['signingRoot']
        text = ('0x' + hashlib.sha512(root.encode()).hexdigest() + hashlib.sha256(root.encode()).hexdigest()).encode()
        if int(root[2:10], 16) % 2:
            text = json.dumps({'signature': text.decode()}).encode()
        self.send_response(200)
        self.send_header('Content-Length', str(len(text)))
        self.end_headers()
        self.wfile.write(text)
log = open(sys.argv[2], 'a')
Server(('127.0.0.1', int(sys.argv[1])), Handler).serve_forever()
'''
folder = tempfile.mkdtemp()
log = os.path.join(folder, 'log')
with socket.socket() as s:
    s.bind(('127.0.0.1', 0))
    port = s.getsockname()[1]

def serve():
    child = subprocess.Popen([sys.executable, '-c', server_source, str(port), log])
    for _ in range(200):
        try:
            socket.create_connection(('127.0.0.1', port), 1).close()
            return child
        except OSError:
            time.sleep(0.05)
    sys.exit('the server does not start')

def signature_of(root):
    return '0x' + hashlib.sha512(root.encode()).hexdigest() + hashlib.sha256(root.encode()).hexdigest()

def root_of(n):
    return '0x' + hashlib.sha256(b'root %d' % n).hexdigest()

with_journal = ['--journal', os.path.join(folder, 'j')]
with_signer = ['--signer', 'http://127.0.0.1:%d' % port]

def session(*options):
    return subprocess.Popen(
        [program, 'session', '--genesis', genesis, '--fork', '0x00000001:0x00000002:7', *options],
        stdin=subprocess.PIPE, stdout=subprocess.PIPE, text=True, bufsize=1)

# how long a session over these objects takes for all blocks
def timed(*options):
    child = session(*options)
    ask(child, op='activate', pubkey=key)
    start = time.time()
    for n in range(1, blocks + 1):
        if ask(child, op='block', pubkey=key, slot=str(n), signing_root=root_of(n))['answer'] != 'signed':
            fail('block', n, 'is not signed')
    taken = time.time() - start
    child.stdin.close()
    child.wait()
    return taken

def ask(child, **members):
    child.stdin.write(json.dumps(members) + '\n')
    child.stdin.flush()
    return json.loads(child.stdout.readline())

def fail(*words):
    print('bench/signer.sh:', *words, file=sys.stderr)
    sys.exit(1)

server = serve()
child = session(*with_journal, *with_signer)
assert ask(child, op='activate', pubkey=key) == {'answer': 'active'}
start = time.time()
for n in range(1, blocks + 1):
    answer = ask(child, op='block', pubkey=key, slot=str(n), signing_root=root_of(n))
    if answer != {'answer': 'signed', 'signature': signature_of(root_of(n)), 'signing_root': root_of(n)}:
        fail('block', n, 'is answered', answer)
ours = time.time() - start

# objects, refusals by the desk, and a dead service
header = {'slot': str(blocks + 1), 'proposer_index': '5', 'parent_root': root_of(1), 'state_root': root_of(2), 'body_root': root_of(3)}
answer = ask(child, op='block', pubkey=key, header=header)
if answer['answer'] != 'signed' or answer['signature'] != signature_of(answer['signing_root']):
    fail('a header is answered', answer)
data = {'slot': '64', 'index': '1', 'beacon_block_root': root_of(4), 'source': {'epoch': '1', 'root': root_of(5)}, 'target': {'epoch': '2', 'root': root_of(6)}}
answer = ask(child, op='vote', pubkey=key, attestation=data)
if answer['answer'] != 'signed' or answer['signature'] != signature_of(answer['signing_root']):
    fail('an attestation is answered', answer)
server.send_signal(signal.SIGKILL); server.wait()
answer = ask(child, op='block', pubkey=key, slot=str(blocks + 2), signing_root=root_of(7))
if answer != {'answer': 'unsigned', 'cause': 'fault'}:
    fail('without a service a block is answered', answer)
server = serve()
answer = ask(child, op='block', pubkey=key, slot=str(blocks + 2), signing_root=root_of(7))
if answer['answer'] != 'signed':
    fail('with the service again the same block is answered', answer)
answer = ask(child, op='block', pubkey=key, slot=str(blocks + 2), signing_root=root_of(8))
if answer.get('reason') != 'double_block':
    fail('another block of its slot is answered', answer)
child.stdin.close()
if child.wait() != 0:
    fail('the session ends with', child.returncode)

asked = [json.loads(line) for line in open(log)]
fork = {'fork': {'previous_version': '0x00000001', 'current_version': '0x00000002', 'epoch': '7'}, 'genesis_validators_root': genesis}
if len(asked) != blocks + 3:
    fail('the service was asked', len(asked), 'times')
for n, request in enumerate(asked, 1):
    body = request['body']
    wanted = 'ATTESTATION' if n == blocks + 2 else 'BLOCK_V2'
    if body['type'] != wanted or body['fork_info'] != fork or request['path'] != '/api/v1/eth2/sign/' + key:
        fail('request', n, 'is', request)
    if n <= blocks and (body['signingRoot'] != root_of(n) or set(body) != {'type', 'fork_info', 'signingRoot'}):
        fail('request', n, 'is', request)
    if request['text'] != json.dumps(body, separators=(',', ':'), sort_keys=True):
        fail('request', n, 'is not compact and sorted:', request['text'])
if asked[blocks]['body'].get('beacon_block') != {'version': 'PHASE0', 'block_header': header}:
    fail('the header goes as', asked[blocks]['body'])
if asked[blocks + 1]['body'].get('attestation') != data:
    fail('the attestation goes as', asked[blocks + 1]['body'])

# a Python client that sends the same requests, a connection each
texts = [request['text'] for request in asked[:blocks]]
start = time.time()
for text in texts:
    link = http.client.HTTPConnection('127.0.0.1', port)
    link.request('POST', '/api/v1/eth2/sign/' + key, text, {'Content-Type': 'application/json', 'Accept': 'application/json', 'Connection': 'close'})
    link.getresponse().read()
    link.close()
theirs = time.time() - start
# the connection itself: the same bytes over a plain socket, without reading them as HTTP
start = time.time()
for text in texts:
    with socket.create_connection(('127.0.0.1', port)) as s:
        s.sendall(('POST /api/v1/eth2/sign/%s HTTP/1.1\r\nHost: 127.0.0.1:%d\r\nAccept: application/json\r\nConnection: close\r\nContent-Type: application/json\r\nContent-Length: %d\r\n\r\n%s' % (key, port, len(text), text)).encode())
        while s.recv(65536):
            pass
plain = time.time() - start
in_memory = timed(*with_signer)
unasked = timed()
server.kill()
micros = lambda seconds: seconds / blocks * 1e6
print('%d blocks: all signatures and requests are right; %.0f signatures a second with a journal, %.0f without' % (blocks, blocks / ours, blocks / in_memory))
print('Python client: %.0f requests a second, plain socket: %.0f a second' % (blocks / theirs, blocks / plain))
print('the service\'s part of a signature: %.0f us; beside the Python client %.2f, beside the plain socket %.2f' % (micros(in_memory - unasked), (in_memory - unasked) / theirs, (in_memory - unasked) / plain))
PY
