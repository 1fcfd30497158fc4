#!/usr/bin/env bash
# Changed inputs of the built program: interchange files, lines of sessions, HTTP requests and responses, journals. Each is an example of the
# repository's own trials whose bytes are flipped, cut, doubled, nested or exchanged, with numbers and lengths at their edges. What becomes of
# it has to be what a plain reading in Python says (hostile_readings.py), which is written from docs/FORMATS.md and not from the code: the
# answer, the status and the line; what is kept, after some of them; and each byte of a journal that was refused, or that a refusal left.
# A kind has lines of what was tried, read and refused for which reason, of memory and of time, and of what came late. The status is 1 where
# something differs, or an input takes more than 50 ms of processor time (above 1 MiB, for each MiB) or 600 KiB more memory than three times its
# size. A process that ends early, or gives no answer within 20 seconds and is killed, is a difference: the input that it had is named, with the
# status or the signal. README.md has what is compared and what is not ("Changed inputs").
# Needs gcc (hostile_each.c) and a program that is built: PROGRAM=PATH names another than crates/validator/out/validator. Peers stand on loopback.
# Usage: bench/hostile.sh [INPUTS] [SEED] [KIND ..]: that many inputs a kind (100,000), drawn from this seed (1), in JOBS processes (2).
set -eu
cd "$(dirname "$0")/.."
program=${PROGRAM:-$PWD/crates/validator/out/validator}
[ -x "$program" ] || { echo "bench/hostile.sh: $program is not there: run 'rt run -- --version' in crates/validator first" >&2; exit 1; }
work=$(mktemp -d)
trap 'rm -rf "$work"' EXIT
gcc -O2 -o "$work/each" bench/hostile_each.c
python3 -B bench/hostile.py "$program" "$work/each" "${1:-100000}" "${2:-1}" "${@:3}"
