"""What a kept vote or block costs in memory (`memory.sh`): a session signs them for 100 keys by a service that answers each call."""
import multiprocessing, os, socket, subprocess, sys, tempfile, time

program, count = sys.argv[1], int(sys.argv[2]) if len(sys.argv) > 2 else 160000
kind = sys.argv[3] if len(sys.argv) > 3 else 'votes'
KEYS = 100
# the bytes of a frame of the journal
FRAME = {'votes': 103, 'blocks': 95}[kind]
SIGNATURE = ('0x' + 'ab' * 96).encode()

def sign(listening):
    answer = b'HTTP/1.1 200 OK\r\nContent-Type: text/plain\r\nContent-Length: %d\r\nConnection: close\r\n\r\n' % len(SIGNATURE) + SIGNATURE
    while True:
        link, _ = listening.accept()
        with link:
            link.recv(65536)
            link.sendall(answer)

def requests(file):
    for n in range(KEYS):
        file.write('{"op":"activate","pubkey":"0x%096x"}\n' % (n + 1))
    for n in range(count):
        at = 1 + n // KEYS
        if kind == 'votes':
            file.write('{"op":"vote","pubkey":"0x%096x","signing_root":"0x%064x","source_epoch":"%d","target_epoch":"%d"}\n' % (n % KEYS + 1, n + 1, at - 1, at))
        else:
            file.write('{"op":"block","pubkey":"0x%096x","signing_root":"0x%064x","slot":"%d"}\n' % (n % KEYS + 1, n + 1, at))

def resident(process):
    with open('/proc/%d/status' % process.pid) as status:
        return next(int(line.split()[1]) for line in status if line.startswith('VmRSS'))

listening = socket.create_server(('127.0.0.1', 0), backlog=512)
service = multiprocessing.Process(target=sign, args=(listening,), daemon=True)
service.start()
with tempfile.TemporaryDirectory() as folder:
    journal = folder + '/journal'
    with open(folder + '/requests', 'w') as file:
        requests(file)
    words = [program, 'session', '--genesis', '0x' + '00' * 32, '--journal', journal, '--signer', 'http://127.0.0.1:%d' % listening.getsockname()[1]]
    with open(folder + '/requests') as source, open(folder + '/answers', 'w') as sink:
        process = subprocess.Popen(words, stdin=source, stdout=sink)
        seen = []
        while process.poll() is None:
            try:
                seen.append((os.path.getsize(journal + '.a') // FRAME, resident(process)))
            except (OSError, StopIteration):
                pass
            time.sleep(0.1)
    with open(folder + '/answers') as answers:
        signed = sum('"signed"' in line for line in answers)
service.terminate()
early = next(it for it in seen if it[0] >= count // 8)
late = seen[-1] if seen[-1][1] else seen[-2]
print('%d of %d %s signed; %d KB after %d, %d KB after %d: %.0f bytes each' % (signed, count, kind, early[1], early[0], late[1], late[0], 1024 * (late[1] - early[1]) / (late[0] - early[0])))
sys.exit(process.returncode or signed != count)
