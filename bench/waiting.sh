#!/usr/bin/env bash
# What the votes of a slot wait for the disk: the built program as a validator client (stand_ins.py) over a disk whose syncs take 0.04, 2 and 10 ms
# (slow_sync.c, which needs gcc), in 1, 4 and 16 lanes, with that many votes in one slot. Prints a row each: how long the program takes from the last
# answer what to vote to the first request for a signature, next to the same bytes written with two syncs and next to SQLite, which inserts the same
# rows in one transaction; and how long all votes take. Ends with 1 where the votes of a slot cost other than two syncs, or a committee is asked for more
# than once.
# Usage: bench/waiting.sh [VOTES]     (1,000; PROGRAM=PATH for another program)
set -eu
cd "$(dirname "$0")/.."
program=${PROGRAM:-crates/validator/out/validator}
[ -x "$program" ] || { echo "bench/waiting.sh: $program is not there: run 'rt run -- --version' in crates/validator first" >&2; exit 1; }
exec python3 -B bench/waiting.py "$program" "$@"
