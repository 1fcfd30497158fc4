#!/bin/sh
# Reading requests over a link in memory: messages a second of a request of 500 bytes, and MB/s of one of 16 MiB by its
# length and in chunks of 1,024 and of 65,536 bytes, next to Python's standard library on the same bytes in the same run.
# Python reads requests by length with http.server's parser. It has no reader of chunked requests, so there http.client
# reads a response with the same fields and the same chunks. Last, how long a flood of 65,536 empty lines takes.
# Run it at the top of the repository. The program is built as lay_out.sh says.
set -eu
work=$(mktemp -d)
trap 'rm -rf "$work"' EXIT

. bench/lay_out.sh

python3 - "$program" <<'PY'
import http.client, http.server, io, subprocess, sys, time
program = sys.argv[1]

FIELDS = (b"Host: localhost:5062\r\nAccept: application/json\r\nAuthorization: Bearer api-token-"
          + b"0123456789" * 5 + b"\r\nUser-Agent: bench\r\nConnection: close\r\nContent-Type: application/json\r\n")
FIRST = b"POST /eth/v1/keystores HTTP/1.1\r\n"
SIZE = 16777216

def sized(body):
    return FIELDS + b"Content-Length: %d\r\n\r\n" % len(body) + body

def chunked(body, size):
    out = [FIELDS, b"Transfer-Encoding: chunked\r\n\r\n"]
    for at in range(0, len(body), size):
        piece = body[at:at + size]
        out += [b"%x\r\n" % len(piece), piece, b"\r\n"]
    return b"".join(out + [b"0\r\n\r\n"])

def small():
    for count in range(500, 0, -1):
        rest = sized(b"x" * count)
        if len(FIRST + rest) == 500:
            return rest
    raise SystemExit("no request of 500 bytes")

class Handler(http.server.BaseHTTPRequestHandler):
    def __init__(self, text):
        self.rfile = io.BytesIO(text)
        self.raw_requestline = self.rfile.readline(65537)
        self.parse_request()
        self.body = self.rfile.read(int(self.headers["Content-Length"]))

class Socket:
    def __init__(self, text):
        self.text = text
    def makefile(self, mode):
        return io.BytesIO(self.text)

def request(rest):
    return len(Handler(FIRST + rest).body)

def response(rest):
    answer = http.client.HTTPResponse(Socket(b"HTTP/1.1 200 OK\r\n" + rest))
    answer.begin()
    return len(answer.read())

def python_seconds(read, rest, times, size):
    best = None
    for _ in range(3):
        start = time.perf_counter()
        for _ in range(times):
            assert read(rest) == size
        took = (time.perf_counter() - start) / times
        best = took if best is None else min(best, took)
    return best

def our_seconds(text, times, size):
    best = None
    for _ in range(3):
        done = subprocess.run([program, "http", str(times)], input=text, capture_output=True, check=True)
        total, nanos = map(int, done.stdout.split())
        assert total == size * times, (total, size, times)
        took = nanos / 1e9 / times
        best = took if best is None else min(best, took)
    return best

rest = small()
size = 500 - (FIRST + rest).index(b"\r\n\r\n") - 4
ours = our_seconds(FIRST + rest, 20000, size)
theirs = python_seconds(request, rest, 5000, size)
print("500 bytes by length: %.0f messages/s; python3 http.server: %.0f messages/s; ratio %.1f" % (1 / ours, 1 / theirs, theirs / ours))

body = b"x" * SIZE
for name, rest, read in (("length", sized(body), request), ("chunks of 1,024", chunked(body, 1024), response), ("chunks of 65,536", chunked(body, 65536), response)):
    ours = our_seconds(FIRST + rest, 4, SIZE)
    theirs = python_seconds(read, rest, 2, SIZE)
    print("16 MiB by %s: %.0f MB/s; python3: %.0f MB/s; ratio %.2f" % (name, SIZE / ours / 1e6, SIZE / theirs / 1e6, theirs / ours))

print("65,536 empty lines: %.1f ms" % (our_seconds(b"\n" * 65536, 1, 0) * 1e3))
PY
