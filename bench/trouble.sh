#!/usr/bin/env bash
# The built program as a validator client (stand_ins.py) among peers that hang, drip, break off or talk rubbish, over a full disk, an output
# that nobody reads, and a clock that is set (trouble.py, trouble_aggregates.py, trouble_runs.py; step_clock.c, which needs gcc). Each scene looks at the status, at each line of
# both outputs, those of standard error by the table in docs/RUNBOOK.md (standard_error.py), at what the signing service signed, and at what was posted when.
# A line for each scene: 'pass NAME', or 'FAIL NAME: why'. Each scene with duties takes two minutes where ten slots are asked for; on a busy machine
# what comes late makes a scene fail. Some scenes mount a file or a small file system for the program alone, which root may.
# Usage: bench/trouble.sh [SLOTS] [SCENE ..]     (10 slots and all scenes; PROGRAM=PATH for another program)
set -eu
cd "$(dirname "$0")/.."
program=${PROGRAM:-crates/validator/out/validator}
[ -x "$program" ] || { echo "bench/trouble.sh: $program is not there: run 'rt run -- --version' in crates/validator first" >&2; exit 1; }
exec python3 -B bench/trouble.py "$program" "$@"
