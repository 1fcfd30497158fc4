#!/bin/sh
# Speed and peak memory of reading large interchange files, alone and with writing them back, next to what Python's json.load and jq take to
# read the same files and SQLite, by Python's sqlite3, to insert the same rows into a file in one transaction (without the reading of any text),
# in the same run: a file of 10,000 keys with 100 entries each, one of a single key with 1,000,000 entries, and one of 2,000,000 blocks
# of 13 bytes each. Speeds are bytes of the interchange file by the whole time of the process, and by the processor time that it took; memory is
# its peak, and how often that is the file.
# Run it at the top of the repository. The program is built as lay_out.sh says. The first argument, if any,
# divides the numbers of keys and entries.
set -eu
part=${1:-1}
work=$(mktemp -d)
trap 'rm -rf "$work"' EXIT

. bench/lay_out.sh

cat >"$work/rows.py" <<'PY'
ROOT, KEY = "0x%064x", "0x%096x"

# each file's keys, its blocks (slot, root) of a key, and its votes (source, target, root)
def shape(name, part):
    if name == "slots":
        return 1, [("1", None)] * (2000000 // part), []
    keys, entries = {"many_keys": (10000 // part, 100), "one_key": (1, 1000000 // part)}[name]
    half = entries // 2
    return keys, [(str(7 * i), ROOT % i) for i in range(half)], [(str(i), str(i + 1), ROOT % i) for i in range(entries - half)]
PY

cat >"$work/files.py" <<'PY'
import json, sys
from rows import KEY, shape
work, part = sys.argv[1], int(sys.argv[2])
rooted = lambda root: {} if root is None else {"signing_root": root}
metadata = {"interchange_format_version": "5", "genesis_validators_root": "0x" + "ab" * 32}
for name in ("many_keys", "one_key", "slots"):
    keys, blocks, votes = shape(name, part)
    blocks = [{"slot": slot} | rooted(root) for slot, root in blocks]
    votes = [{"source_epoch": source, "target_epoch": target} | rooted(root) for source, target, root in votes]
    data = [{"pubkey": KEY % key, "signed_blocks": blocks, "signed_attestations": votes} for key in range(keys)]
    with open(f"{work}/{name}.json", "w") as out:
        json.dump({"metadata": metadata, "data": data}, out, separators=(",", ":") if name == "slots" else None)
PY

cat >"$work/import.py" <<'PY'
import sqlite3, sys
from rows import KEY, shape
keys, blocks, votes = shape(sys.argv[1], int(sys.argv[2]))
base = sqlite3.connect(sys.argv[3])
base.execute("create table blocks (key text, slot text, root text)")
base.execute("create table votes (key text, source text, target text, root text)")
for key in range(keys):
    base.executemany("insert into blocks values (?, ?, ?)", ((KEY % key, *block) for block in blocks))
    base.executemany("insert into votes values (?, ?, ?, ?)", ((KEY % key, *vote) for vote in votes))
base.commit()
PY

python3 "$work/files.py" "$work" "$part"

# tells what a command took for a file: measure FILE WHAT COMMAND..
measure() {
    size=$(wc -c <"$1")
    what=$2
    shift 2
    /usr/bin/time -f '%e %U %S %M' -o "$work/time" "$@" >"$work/out"
    awk -v size="$size" -v what="$what" '{
        printf "  %-22s %6.1f MB/s, %6.1f by processor time, peak %4d MB (%.1f times the file)\n",
            what ":", size / 1e6 / ($1 + 0.001), size / 1e6 / ($2 + $3 + 0.001), $4 * 1024 / 1e6, $4 * 1024 / size }' "$work/time"
}

for name in many_keys one_key slots; do
    file="$work/$name.json"
    echo "$name: $(($(wc -c <"$file") / 1000000)) MB"
    measure "$file" "read" sh -c 'exec "$1" interchange read <"$2"' sh "$program" "$file"
    measure "$file" "read and written back" sh -c 'exec "$1" interchange <"$2"' sh "$program" "$file"
    measure "$file" "python3 json.load" python3 -c 'import json, sys; json.load(open(sys.argv[1]))' "$file"
    if command -v jq >/dev/null; then measure "$file" "jq" jq '.data | length' "$file"; fi
    measure "$file" "sqlite3 inserts" python3 "$work/import.py" "$name" "$part" "$work/$name.db"
    rm -f "$work/$name.db"
done
