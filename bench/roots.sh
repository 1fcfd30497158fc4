#!/bin/sh
# Hashes per second for the root of a block of phase 0 and of one of Altair whose lists are all full, next to Python's
# hashlib doing the same number of hashes of 64 bytes in the same run, and the number of SHA-256 calls for each root. The
# number is counted by a walk in Python over the same trees, which also computes the root that the program has to print.
# Run it at the top of the repository. The program is built as lay_out.sh says.
set -eu
work=$(mktemp -d)
trap 'rm -rf "$work"' EXIT

. bench/lay_out.sh

python3 - "$work" "$program" <<'PY'
import hashlib, json, subprocess, sys, time
work, program = sys.argv[1], sys.argv[2]
TIMES = 100
calls = 0

def pair(a, b):
    global calls
    calls += 1
    return hashlib.sha256(a + b).digest()

def merkle(chunks, limit):
    depth = max(limit - 1, 0).bit_length()
    level, zero = list(chunks), bytes(32)
    if not level:
        for _ in range(depth):
            zero = pair(zero, zero)
        return zero
    for d in range(depth):
        odd = len(level) % 2 == 1
        if odd:
            level.append(zero)
        # a zero root one deeper is needed where an odd level is still to come
        need = any(-(-len(chunks) // (1 << e)) % 2 == 1 for e in range(d + 1, depth))
        level = [pair(level[i], level[i + 1]) for i in range(0, len(level), 2)]
        if need:
            zero = pair(zero, zero)
    return level[0]

def pack(data):
    return [data[i:i + 32].ljust(32, b"\0") for i in range(0, len(data), 32)]

def number(n): return n.to_bytes(8, "little").ljust(32, b"\0"), str(n)
def raw(data): return merkle(pack(data), -(-len(data) // 32)), "0x" + data.hex()
def mixed(root, length): return pair(root, length.to_bytes(32, "little"))
def container(**fields):
    values = list(fields.items())
    return merkle([v[0] for _, v in values], len(values)), {k: v[1] for k, v in values}
def listing(items, limit): return mixed(merkle([i[0] for i in items], limit), len(items)), [i[1] for i in items]
def vector(items): return merkle([i[0] for i in items], len(items)), [i[1] for i in items]
def numbers(ns, limit):
    data = b"".join(n.to_bytes(8, "little") for n in ns)
    return mixed(merkle(pack(data), limit // 4), len(ns)), [str(n) for n in ns]
def bits(count, limit):
    whole = (1 << count) - 1
    data = whole.to_bytes(count // 8, "little")
    text = (whole | 1 << count).to_bytes(count // 8 + 1, "little")
    return mixed(merkle(pack(data), limit // 256), count), "0x" + text.hex()

def root_of(n): return raw(n.to_bytes(32, "big"))
def sig(): return raw(b"\x44" * 96)
def checkpoint(n): return container(epoch=number(n), root=root_of(n))
def data(): return container(slot=number(7), index=number(2), beacon_block_root=root_of(9), source=checkpoint(1), target=checkpoint(3))
def header(n): return container(slot=number(n), proposer_index=number(2), parent_root=root_of(3), state_root=root_of(4), body_root=root_of(5))
def signed(message): return container(message=message, signature=sig())
def indexed(): return container(attesting_indices=numbers(range(2048), 2048), data=data(), signature=sig())
def deposit(): return container(proof=vector([root_of(n) for n in range(33)]), data=container(
    pubkey=raw(b"\x11" * 48), withdrawal_credentials=root_of(6), amount=number(32), signature=sig()))

def block(version):
    some = lambda make, limit: listing([make() for _ in range(limit)], limit)
    more = {} if version == "phase0" else {"sync_aggregate": container(
        sync_committee_bits=raw(b"\xff" * 64), sync_committee_signature=sig())}
    body = container(
        randao_reveal=sig(),
        eth1_data=container(deposit_root=root_of(1), deposit_count=number(5), block_hash=root_of(2)),
        graffiti=root_of(8),
        proposer_slashings=some(lambda: container(signed_header_1=signed(header(1)), signed_header_2=signed(header(2))), 16),
        attester_slashings=some(lambda: container(attestation_1=indexed(), attestation_2=indexed()), 2),
        attestations=some(lambda: container(aggregation_bits=bits(2048, 2048), data=data(), signature=sig()), 128),
        deposits=some(deposit, 16),
        voluntary_exits=some(lambda: signed(container(epoch=number(1), validator_index=number(2))), 16),
        **more)
    return container(slot=number(1), proposer_index=number(2), parent_root=root_of(3), state_root=root_of(4), body=body)

def run(given):
    began = time.perf_counter()
    done = subprocess.run([program, "roots"], input=given, stdout=subprocess.PIPE, check=True)
    return time.perf_counter() - began, done.stdout.decode().strip()

def look(version):
    global calls
    calls = 0
    root, value = block(version)
    calls_of_root = calls
    text = json.dumps({"version": version, "data": value}).encode()
    seconds, answer = run(text)
    wanted = json.dumps("0x" + root.hex())
    if answer != wanted:
        sys.exit(f"{version}: the program's root is {answer}, and not {wanted}")
    piece = bytes(64)
    began = time.perf_counter()
    for _ in range(calls_of_root * TIMES):
        hashlib.sha256(piece).digest()
    theirs = time.perf_counter() - began
    print(f"{version}: SHA-256 calls for the root of a full block: {calls_of_root}")
    print(f"{version}: the program: {calls_of_root * TIMES / seconds:,.0f} hashes a second ({TIMES} roots, reading {len(text) / 1e6:.1f} MB of JSON included)")
    print(f"{version}: Python's hashlib: {calls_of_root * TIMES / theirs:,.0f} hashes of 64 bytes a second; the program takes {seconds / theirs:.2f} times as long")

for version in ("phase0", "altair"):
    look(version)
PY
