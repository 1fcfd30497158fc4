#!/usr/bin/env bash
# Runs the built program on a generated session and prints requests per second and peak memory.
# A program that is built is measured as it stands, else it is built first.
# Usage: bench/session.sh [KEYS] [BLOCKS]: that many keys are activated, and that many blocks of growing slots proposed in turn.
set -eu
cd "$(dirname "$0")/.."
keys=${1:-1000}
blocks=${2:-200000}
program=crates/validator/out/validator
[ -x "$program" ] || (cd crates/validator && rt run -- session --genesis "0x$(printf '0%.0s' {1..64})" < /dev/null > /dev/null 2>&1) || true
[ -x "$program" ] || { echo "the program is not built: run 'rt run' in crates/validator" >&2; exit 1; }
work=$(mktemp -d)
trap 'rm -rf "$work"' EXIT
python3 - "$keys" "$blocks" > "$work/input" <<'PY'
import sys
keys, blocks = int(sys.argv[1]), int(sys.argv[2])
name = lambda k: "0x%096x" % (k + 1)
for k in range(keys):
    print('{"op":"activate","pubkey":"%s"}' % name(k))
for i in range(blocks):
    print('{"op":"block","pubkey":"%s","signing_root":"0x%064x","slot":"%d"}' % (name(i % keys), i, i))
PY
lines=$(wc -l < "$work/input")
python3 - "$program" "$work/input" "$work/output" "$lines" <<'PY'
import os, resource, subprocess, sys
program, given, written, lines = sys.argv[1], sys.argv[2], sys.argv[3], int(sys.argv[4])
with open(given) as i, open(written, "w") as o:
    status = subprocess.call([program, "session", "--genesis", "0x" + "0" * 64], stdin=i, stdout=o)
used = resource.getrusage(resource.RUSAGE_CHILDREN)
seconds = used.ru_utime + used.ru_stime
answers = sum(1 for _ in open(written))
print(f"status {status}, {answers} answers of {lines} requests, {os.path.getsize(given) / 1e6:.1f} MB in")
print(f"{lines / seconds:,.0f} requests per second of processor time, {seconds / lines * 1e6:.2f} microseconds each")
print(f"peak memory {used.ru_maxrss / 1024:.1f} MB")
PY
