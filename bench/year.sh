#!/usr/bin/env bash
# A year of the built program as a validator client, in some hours: whether its memory and its journal stay small ("A year" in README.md).
# `serve` runs over a journal of files, with a beacon node and a signing service, over a clock that is driven (year_clock.c).
# Each key votes once an epoch, and the keys have their share of the blocks among a million validators. Once a week the program is killed
# at a random moment and started again; once a week a key is given up by the Keymanager API, and taken in again with its file, or another one
# in its place. Prints a line a week, and a line for each goal; status 1 where one is missed, or a peer or the program fails.
# Usage: bench/year.sh [WEEKS] [KEYS]     (52 weeks, 1,000 keys; PROGRAM=PATH for another program)
# PEERS=inside answers within the program's process (year_inside.c), PEERS=apart by a process of its own over connections (year_peers.c); the
# first is what stands without PEERS, and is faster. LANES=N is how many lanes (4), KEEP_EPOCHS=N the number after --keep-epochs (64; left
# away where it is empty, or the program has no such option), WORDS='..' further words of serve, SEED=N draws other moments (1). To try this
# script: SLOTS_A_WEEK=N has shorter weeks (50,400), VALIDATORS=N has fewer validators, and so more blocks (1,000,000), KEEP=1 leaves the folder
# of the run, and prints its name. The folder, with the journal, is made in TMPDIR.
set -eu
cd "$(dirname "$0")/.."
program=${PROGRAM:-crates/validator/out/validator}
[ -x "$program" ] || { echo "bench/year.sh: $program is not there: run 'rt run -- --version' in crates/validator first" >&2; exit 1; }
command -v gcc >/dev/null || { echo "bench/year.sh: gcc is wanted" >&2; exit 1; }
weeks=${1:-52} keys=${2:-1000}
case "$weeks$keys" in *[!0-9]*) echo "bench/year.sh: WEEKS and KEYS are numbers" >&2; exit 1;; esac
[ "$weeks" -ge 1 ] && [ "$keys" -ge 1 ] && [ "$keys" -le 65000 ] || { echo "bench/year.sh: at least one week, and 1 to 65,000 keys" >&2; exit 1; }
built=$(mktemp -d)
if [ -n "${KEEP:-}" ]; then echo "$built"; else trap 'rm -rf "$built"' EXIT; fi
gcc -O2 -Wall -Wextra -shared -fPIC -o "$built/clock.so" bench/year_clock.c
gcc -O2 -Wall -Wextra -shared -fPIC -pthread -o "$built/inside.so" bench/year_clock.c bench/year_answers.c bench/year_inside.c
gcc -O2 -Wall -Wextra -o "$built/peers" bench/year_peers.c bench/year_answers.c
python3 -B bench/year.py "$program" "$built" "$weeks" "$keys"
