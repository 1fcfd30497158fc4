#!/usr/bin/env bash
# Runs the built program over real files with its standard streams closed, full, left by their reader, or the journal's own
# files, and with a journal at odd paths; looks each time at the status, at what was written, and that each file of the
# journal holds the bytes that it should, and no other. A row is a scene; a wrong one says what came. Ends with 1 where a
# row is wrong.
# A program that is built is run as it stands, else it is built first.
# Usage: bench/streams.sh
set -eu
cd "$(dirname "$0")/.."
program=$PWD/crates/validator/out/validator
[ -x "$program" ] || (cd crates/validator && rt run -- session --genesis "0x$(printf '0%.0s' {1..64})" < /dev/null > /dev/null 2>&1) || true
[ -x "$program" ] || { echo "the program is not built: run 'rt run' in crates/validator" >&2; exit 1; }
exec python3 bench/streams.py "$program"
