#!/usr/bin/env bash
# The built program, to which one allocation after another is refused (no_memory.c, which needs gcc; no_memory.py), each alone, and each with all after
# it: in a session that imports, signs and deletes, in one whose import the signing service refuses, in one that compacts, in a merge, in a showing, in
# two slots of `serve`, and in a DELETE to its Keymanager API. A run has to end in one of three ways. With status 8, and a front of the usual answers. With
# all of these, where what was refused was not wanted. Or with the answers that a call of the signing service or of the node brings when it fails, and then
# standard error has to say that there was no memory to connect. It may have no other line, but that of the import. The journal has to open to what was
# answered, and to keep what the service signed; signatures, posts and files of deletions have to be of that; the last proposal comes again, with the same
# root, and over a copy of the journal with another one; merges and deletions come again. Prints the rows that are wrong, and for each script how many
# ended with which status; ends with 1 where one is wrong.
# A program that `rt try` built is no use here: it has an allocator of its own.
# Usage: bench/no_memory.sh     (PROGRAM=PATH for another program, WORKERS=N at once, STEP=N allocations from row to row, STEP_ON=N likewise where
# all after it are refused, SCRIPTS='session serve ..' for some of session, refusal, compaction, merge, show, serve, DELETE)
set -eu
cd "$(dirname "$0")/.."
program=${PROGRAM:-crates/validator/out/validator}
[ -x "$program" ] || { echo "bench/no_memory.sh: $program is not there: run 'rt run -- --version' in crates/validator first" >&2; exit 1; }
exec python3 -B bench/no_memory.py "$program"
