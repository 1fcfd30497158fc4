#!/usr/bin/env bash
# What a kept vote or block costs in memory: the built program's resident size while it signs for 100 keys (memory.py).
# Usage: bench/memory.sh [NUMBER] [votes|blocks]     (160,000 votes; PROGRAM=PATH for another program)
set -eu
cd "$(dirname "$0")/.."
program=${PROGRAM:-crates/validator/out/validator}
[ -x "$program" ] || { echo "bench/memory.sh: $program is not there: run 'rt run -- --version' in crates/validator first" >&2; exit 1; }
exec python3 -B bench/memory.py "$program" "$@"
