#!/usr/bin/env bash
# The built program, of whose outside calls one goes wrong, a row each (faults.py, faulty_runs.py): a connection to the beacon node or the
# signing service that is cut before a byte, within the head, within the body or after it (stand_ins.py behind a proxy); a caller of the Keymanager
# API that leaves; a disk that is full at each byte of the journal, and a kill there; closed standard streams. A row has the status, the last
# line, the lines of standard error, how the keys stand when the journal is opened again, with each block and vote that is kept, and what the last proposal is answered that comes
# again, with the same root, and over a copy of the journal with another one. Each message that the signing service signed has to be kept, no two of them
# may be slashable, and signatures that are answered or posted and the files of deletions have to be of them. Ends with 1 where a row is wrong.
# Needs gcc: `serve` runs over a clock that is driven (year_clock.c), so that no slot is waited for.
# Usage: bench/faults.sh     (PROGRAM=PATH for another program, WORKERS=N at once, STEP=N bytes of the disk from row to row)
set -eu
cd "$(dirname "$0")/.."
program=${PROGRAM:-crates/validator/out/validator}
[ -x "$program" ] || { echo "bench/faults.sh: $program is not there: run 'rt run -- --version' in crates/validator first" >&2; exit 1; }
exec python3 -B bench/faults.py "$program"
