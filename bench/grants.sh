#!/usr/bin/env bash
# Grants per second of the built program with a journal, next to what the disk allows and next to SQLite, in one run.
# The limit: a loop that does the two writes and two fsyncs of a grant, of the same sizes, on a file of the same folder. SQLite:
# Python's sqlite3 inserting one row of the same columns a transaction with synchronous=FULL, in its default journal mode and in WAL.
# Then: opening a journal of 100,000 batches of one block, next to reading the file; and what the votes of one slot wait for the disk (waiting.sh).
# A program that is built is measured as it stands, else it is built first.
# Usage: bench/grants.sh [GRANTS] [FOLDER]: that many grants (5000), the files in this folder (a temporary one).
set -eu
cd "$(dirname "$0")/.."
grants=${1:-5000}
program=$PWD/crates/validator/out/validator
[ -x "$program" ] || (cd crates/validator && rt run -- session --genesis "0x$(printf '0%.0s' {1..64})" < /dev/null > /dev/null 2>&1) || true
[ -x "$program" ] || { echo "the program is not built: run 'rt run' in crates/validator" >&2; exit 1; }
work=${2:-$(mktemp -d)}
mkdir -p "$work"
python3 - "$program" "$work" "$grants" <<'PY'
import os, sqlite3, struct, subprocess, sys, time
program, work, grants = sys.argv[1], sys.argv[2], int(sys.argv[3])
genesis = "0x" + "0" * 64
key = bytes([0x11]) * 48
fresh = lambda name: [os.path.exists(p) and os.remove(p) for p in (os.path.join(work, name + end) for end in ("", ".a", ".b", "-wal", "-shm", "-journal"))]

def requests(path, first, count):
    with open(path, "w") as f:
        f.write('{"op":"activate","pubkey":"0x%s"}\n' % key.hex())
        for slot in range(first, first + count):
            f.write('{"op":"block","pubkey":"0x%s","signing_root":"0x%064x","slot":"%d"}\n' % (key.hex(), slot, slot))

def session(journal, given):
    words = [program, "session", "--genesis", genesis] + (["--journal", journal] if journal else [])
    with open(given) as i, open(os.path.join(work, "answers"), "w") as o:
        start = time.perf_counter()
        status = subprocess.call(words, stdin=i, stdout=o)
        took = time.perf_counter() - start
    assert status == 0, status
    return took

given = os.path.join(work, "requests")
requests(given, 1, grants)
fresh("journal")
product = session(os.path.join(work, "journal"), given) / grants
size = os.path.getsize(os.path.join(work, "journal.a"))

# the limit: what the disk needs for the writes and syncs of a grant
fresh("limit")
with open(os.path.join(work, "limit"), "wb", buffering=0) as f:
    frame, at = b"\0" * (4 + 90 + 1), 42
    os.pwrite(f.fileno(), b"\0" * 42, 0)
    os.fsync(f.fileno())
    start = time.perf_counter()
    for i in range(grants):
        os.pwrite(f.fileno(), frame, at)
        os.fsync(f.fileno())
        os.pwrite(f.fileno(), b"\1", at - 1)
        os.fsync(f.fileno())
        at += len(frame)
    limit = (time.perf_counter() - start) / grants
    start = time.perf_counter()
    for i in range(1000):
        os.pwrite(f.fileno(), b"\1", at - 1)
        os.fsync(f.fileno())
    sync = (time.perf_counter() - start) / 1000

def sqlite(mode):
    fresh("rows")
    base = sqlite3.connect(os.path.join(work, "rows"), isolation_level=None)
    base.execute(f"pragma journal_mode={mode}")
    base.execute("pragma synchronous=FULL")
    base.execute("create table blocks (pubkey blob, slot integer, root blob, unique (pubkey, slot))")
    start = time.perf_counter()
    for slot in range(grants):
        base.execute("begin immediate")
        base.execute("insert into blocks values (?, ?, ?)", (key, slot, slot.to_bytes(32, "big")))
        base.execute("commit")
    took = (time.perf_counter() - start) / grants
    base.close()
    return took

print(f"a write of one byte and its fsync: {sync * 1e6:.0f} microseconds; journal of {size} bytes after {grants} grants")
print(f"product  {1 / product:10,.0f} grants a second, {product * 1e6:8.1f} microseconds each")
for name, took in (("limit", limit), ("sqlite", sqlite("delete")), ("sqlite wal", sqlite("wal"))):
    print(f"{name:10} {1 / took:8,.0f} a second, {took * 1e6:8.1f} microseconds each; product / {name}: {product / took:.2f}")

# opening
genesis_root = bytes(32)
for batches in (50_000, 100_000):
    fresh("opened")
    path = os.path.join(work, "opened.a")
    payload = lambda slot: b"\x01" + key + struct.pack("<Q", slot) + b"\x01" + slot.to_bytes(32, "big")
    with open(path, "wb") as f:
        f.write(b"\x01VKHJRN01" + genesis_root)
        for slot in range(batches):
            p = payload(slot)
            f.write(b"\x01" + struct.pack("<I", len(p)) + p)
        f.write(b"\x00")
    start = time.perf_counter()
    open(path, "rb").read()
    read = time.perf_counter() - start
    start = time.perf_counter()
    out = subprocess.run([program, "show", "--genesis", genesis, "--journal", os.path.join(work, "opened")], capture_output=True, text=True)
    took = time.perf_counter() - start
    assert out.returncode == 0, out
    print(f"opening {batches:,} batches, {os.path.getsize(path) / 1e6:.1f} MB: {took * 1e3:.0f} ms; reading the file alone: {read * 1e3:.1f} ms")
PY
PROGRAM=$program exec bench/waiting.sh
