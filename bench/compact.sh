#!/bin/sh
# Seconds and peak memory of opening a journal of 1,000,000 votes of 1,000 keys, a batch each, of compacting it, and of opening what that
# leaves, next to SQLite's VACUUM of the same rows, by Python's sqlite3, in the same run. A compaction is one line of a session, from its request
# to its answer. Memory is the peak of the process; of the compaction also what is held before it.
# Run it at the top of the repository. A program that is built is measured as it stands, else it is built first. The first argument, if any,
# divides the number of votes, the second is a folder for the files.
set -eu
part=${1:-1}
work=$(mktemp -d "${2:-/tmp}/compact.XXXXXX")
trap 'rm -rf "$work"' EXIT

program=crates/validator/out/validator
[ -x "$program" ] || (cd crates/validator && rt run -- --version >"$work/build" 2>&1) || { cat "$work/build"; exit 1; }

cat >"$work/rows.py" <<'PY'
KEYS = 1000

# each vote in the order in which it was signed: the key's number, source, target and the byte of its root
def votes(count):
    for i in range(count):
        yield i % KEYS, i // KEYS, i // KEYS + 1, i % 251

def key(number):
    return number.to_bytes(48, "big")
PY

cat >"$work/journal.py" <<'PY'
import sys
from rows import KEYS, key, votes
path, count = sys.argv[1], int(sys.argv[2])
frame = lambda payload: b"\x01" + len(payload).to_bytes(4, "little") + payload
with open(path, "wb") as out:
    out.write(b"\x01VKHJRN01" + bytes(32))
    for number in range(KEYS):
        out.write(frame(b"\x04" + key(number)))
    for number, source, target, root in votes(count):
        out.write(frame(b"\x02" + key(number) + source.to_bytes(8, "little") + target.to_bytes(8, "little") + b"\x01" + bytes([root]) * 32))
    out.write(b"\x00")
PY

cat >"$work/table.py" <<'PY'
import sqlite3, sys
from rows import key, votes
base = sqlite3.connect(sys.argv[1])
base.execute("create table votes (key blob, source integer, target integer, root blob)")
base.executemany("insert into votes values (?, ?, ?, ?)", ((key(n), s, t, bytes([r]) * 32) for n, s, t, r in votes(int(sys.argv[2]))))
base.commit()
PY

cat >"$work/vacuum.py" <<'PY'
import sqlite3, sys, time
base = sqlite3.connect(sys.argv[1])
begun = time.monotonic()
base.execute("vacuum")
print(f"SQLite VACUUM alone: {time.monotonic() - begun:.2f} s", flush=True)
PY

cat >"$work/measure.py" <<'PY'
import os, subprocess, sys, time
work, program, count = sys.argv[1], sys.argv[2], int(sys.argv[3])
words = [program, "session", "--genesis", "0x" + "0" * 64, "--journal", f"{work}/j"]

# runs a command with an input; its output, seconds and peak memory in MB
def run(command, text):
    begun = time.monotonic()
    made = subprocess.Popen(command, stdin=subprocess.PIPE, stdout=subprocess.PIPE, text=True)
    made.stdin.write(text)
    made.stdin.close()
    output = made.stdout.read()
    _, status, used = os.wait4(made.pid, 0)
    if status:
        sys.exit(f"status {status}: {output}")
    return output, time.monotonic() - begun, used.ru_maxrss * 1024 / 1e6

# megabytes that a process holds now (VmRSS), and the most that it held (VmHWM)
def held(pid, name):
    with open(f"/proc/{pid}/status") as lines:
        return next(int(line.split()[1]) * 1024 / 1e6 for line in lines if line.startswith(name))

_, opening, opening_memory = run(words, "")
before = os.path.getsize(f"{work}/j.a") / 1e6
made = subprocess.Popen(words, stdin=subprocess.PIPE, stdout=subprocess.PIPE, text=True)
made.stdin.write('{"op":"list","epoch":"0"}\n')
made.stdin.flush()
made.stdout.readline()
kept = held(made.pid, "VmRSS")
begun = time.monotonic()
made.stdin.write('{"op":"compact"}\n')
made.stdin.flush()
told = made.stdout.readline()
compaction = time.monotonic() - begun
memory = held(made.pid, "VmHWM")
made.stdin.close()
made.wait()
after = os.path.getsize(f"{work}/j.b") / 1e6
_, again, again_memory = run(words, "")
print(told, end="")
print(f"{count} votes: {before:.0f} MB before, {after:.0f} MB after")
print(f"opening: {opening:.2f} s, {opening_memory:.0f} MB ({opening_memory / before:.1f} times the file)")
print(f"compaction: {compaction:.2f} s; {kept:.0f} MB are held before it, {memory:.0f} MB at its peak: {(memory - kept) / after:.1f} times the snapshot more, {memory / after:.1f} times in all")
print(f"opening again: {again:.2f} s, {again_memory:.0f} MB")
told, vacuum, vacuum_memory = run([sys.executable, f"{work}/vacuum.py", f"{work}/table.db"], "")
print(told, end="")
print(f"SQLite, process: {vacuum:.2f} s, {vacuum_memory:.0f} MB; the file {os.path.getsize(f'{work}/table.db') / 1e6:.0f} MB")
PY

count=$((1000000 / part))
python3 "$work/journal.py" "$work/j.a" "$count"
python3 "$work/table.py" "$work/table.db" "$count"
python3 "$work/measure.py" "$work" "$program" "$count"
