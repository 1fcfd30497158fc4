#!/bin/sh
# Nanoseconds a check of a vote among 10, 1,000 and 1,000,000 kept votes of a key, at random places, next to SQLite looking
# up the same targets by an index on (key, target): by a prepared statement from Python, one a lookup, and as one statement
# that looks them all up by itself. SQLite only looks for a vote of the target, and not for votes that surround. Then a
# merge of a file of 1,000 votes into the votes that are kept, and 10,000 random records next to a plain walk.
# Run it at the top of the repository. The program is built as lay_out.sh says.
set -eu
work=$(mktemp -d)
trap 'rm -rf "$work"' EXIT

. bench/lay_out.sh

python3 - "$program" <<'PY'
import random, sqlite3, subprocess, sys, time
program = sys.argv[1]
CHECKS = 200000
KEY = b"\x11" * 48

def program_runs(kept):
    best = None
    for _ in range(3):
        passed, checking, merging = map(int, subprocess.run([program, "check", str(kept), str(CHECKS)], stdout=subprocess.PIPE, check=True).stdout.split())
        if passed != CHECKS:
            raise SystemExit(f"{passed} of {CHECKS} pass")
        best = (checking, merging) if best is None else (min(best[0], checking), min(best[1], merging))
    return best[0] / CHECKS, best[1] / 1e6

def sqlite_runs(kept):
    base = sqlite3.connect(":memory:")
    base.execute("create table votes(key blob, target integer, source integer, root blob)")
    base.executemany("insert into votes values(?, ?, ?, ?)", ((KEY, 2 * k + 2, 2 * k, b"\xaa" * 32) for k in range(kept)))
    base.execute("create index by_target on votes(key, target)")
    base.execute("create table asked(target integer)")
    draw = random.Random(1)
    targets = [(2 * draw.randrange(kept) + 3,) for _ in range(CHECKS)]
    base.executemany("insert into asked values(?)", targets)
    base.commit()
    one = all_at_once = float("inf")
    for _ in range(3):
        ask = base.cursor()
        began = time.perf_counter()
        for (target,) in targets:
            if ask.execute("select source, root from votes where key = ? and target = ?", (KEY, target)).fetchone() is not None:
                raise SystemExit("a target is kept")
        one = min(one, time.perf_counter() - began)
        began = time.perf_counter()
        found = ask.execute("select count(*) from asked cross join votes indexed by by_target on votes.key = ? and votes.target = asked.target", (KEY,)).fetchone()[0]
        all_at_once = min(all_at_once, time.perf_counter() - began)
        if found != 0:
            raise SystemExit("a target is kept")
    return one / CHECKS * 1e9, all_at_once / CHECKS * 1e9

print(f"SQLite {sqlite3.sqlite_version}, {CHECKS:,} checks a size, the best of three runs")
for kept in (10, 1000, 1000000):
    checking, merging = program_runs(kept)
    one, all_at_once = sqlite_runs(kept)
    print(f"{kept:>9,} kept votes: {checking:,.0f} ns a check; SQLite {one:,.0f} ns a statement, {all_at_once:,.0f} ns a lookup within one; merging 1,000 more {merging:,.2f} ms")
print("random records that agree with a plain walk:", subprocess.run([program, "check", "10000"], stdout=subprocess.PIPE, check=True).stdout.decode().strip())
PY
