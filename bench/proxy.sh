#!/usr/bin/env bash
# The built program as a signing proxy (`validator proxy`), between clients and a signing service, each in Python (proxy.py, proxy_peers.py). It prints
# signatures a second and the time of one, through the proxy and straight to the service, for 1, 4 and 16 connections at once and a service that takes 0 and
# 20 ms; the time that the proxy adds to one signature, next to two syncs of the same disk; what becomes of a storm of slashable requests of sixteen clients
# for SECONDS, in which the proxy is killed twice, and how many slashable pairs the replies and the service have; a table of the requests of the clients of the
# field; the longest time of a signature next to peers that hang, and the open files and the memory of the proxy; and how many lines of each form standard
# error had. The status is 1 where a pair is slashable, a signature is not that of the root, or files or memory grow with the connections.
# Usage: bench/proxy.sh [SECONDS] [SCENE ..]     (60 s, and the scenes times, storm, forms, peers, lists and ends; PROGRAM=PATH for another program,
# FOLDER=PATH for the journals, else one below the system's folder of temporary files)
set -eu
cd "$(dirname "$0")/.."
program=${PROGRAM:-crates/validator/out/validator}
[ -x "$program" ] || { echo "bench/proxy.sh: $program is not there: run 'rt run -- --version' in crates/validator first" >&2; exit 1; }
exec env PYTHONPATH=bench python3 -B bench/proxy.py "$program" "$@"
