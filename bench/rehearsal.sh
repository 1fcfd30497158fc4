#!/usr/bin/env bash
# Rehearsals of the built program next to a plain reading of their rules (docs/FORMATS.md) in Python, written from these and not from the
# code: each imported book is kept apart, EIP-3076's conditions are looked at book by book, and a stop is a place among the four calls of
# the disk by which a vote gets into a journal. All six lines have to be what the reading counts, and the same bytes a second time. Prints
# what was compared; the first difference is shown and ends it with status 1.
# A program that is built is run as it stands, else it is built first.
# Usage: bench/rehearsal.sh [RUNS] [SEED]: the largest rehearsal of number 7, and that many (50) small ones drawn from this seed (1).
set -eu
cd "$(dirname "$0")/.."
program=$PWD/crates/validator/out/validator
[ -x "$program" ] || (cd crates/validator && rt run -- rehearse 1 1 0 > /dev/null 2>&1) || true
[ -x "$program" ] || { echo "the program is not built: run 'rt run' in crates/validator" >&2; exit 1; }
python3 - "$program" "${1:-50}" "${2:-1}" <<'PY'
import random, subprocess, sys, time
program, runs, seed = sys.argv[1], int(sys.argv[2]), int(sys.argv[3])

# a block is (slot, root), a vote (source, target, root); the root of an entry may be None, which is equal to no message's
def conflict(e, m):
    if len(e) != len(m):
        return False
    if len(m) == 2:
        return e[0] == m[0] and e[1] != m[1]
    return (e[1] == m[1] and e != m) or (e[0] < m[0] and m[1] < e[1]) or (m[0] < e[0] and e[1] < m[1])

# EIP-3076, conditions 1 to 5, over one book; conflicts are looked at over all entries at once
def book_refuses(book, m):
    blocks, votes = [e for e in book if len(e) == 2], [e for e in book if len(e) == 3]
    if len(m) == 2:
        return bool(blocks) and m[0] <= min(e[0] for e in blocks) and m not in book
    return bool(votes) and (m[0] < min(e[0] for e in votes) or (m[1] <= min(e[1] for e in votes) and m not in book))

class Past:
    def __init__(self):
        self.books, self.entries = [], set()

    def add(self, book):
        self.books.append(frozenset(book))
        self.entries |= self.books[-1]

    def passes(self, m):
        return not any(conflict(e, m) for e in self.entries) and not any(book_refuses(book, m) for book in self.books)

    # floors and the entries that still count
    def kept(self):
        least = lambda length, place: max((min(e[place] for e in book if len(e) == length) for book in self.books if any(len(e) == length for e in book)), default=None)
        slot, source, target = least(2, 0), least(3, 0), least(3, 1)
        blocks = [e for e in self.entries if len(e) == 2 and (slot is None or slot <= e[0])]
        votes = [e for e in self.entries if len(e) == 3 and (target is None or target <= e[1] or source < e[0])]
        return source, target, blocks, votes

    def export(self):
        source, target, blocks, votes = self.kept()
        regular = source is None or (all(source <= e[0] and target <= e[1] for e in votes) and any(e[0] == source for e in votes) and any(e[1] == target for e in votes))
        return blocks + (votes if regular else [(max([source] + [e[0] for e in votes]), max([target] + [e[1] for e in votes]), None)])

    def prune(self):
        source, target, blocks, votes = self.kept()
        book = [e for e in blocks if e[0] == max(b[0] for b in blocks)]
        if votes or source is not None:
            above = lambda floor, values: max(values + ([] if floor is None else [floor]))
            pair = above(source, [e[0] for e in votes]), above(target, [e[1] for e in votes])
            last = {e for e in votes if e[1] == pair[1]}
            book.append(pair + (last.pop()[2] if len(last) == 1 and next(iter(last))[:2] == pair else None,))
        self.add(book)

def rehearse(number, clients, steps):
    state, sent, counts = number, {}, dict.fromkeys(("granted", "refused", "handovers", "stops"), 0)
    holder = [place % clients for place in range(2 * clients)]
    pasts = {(holder[place], place): Past() for place in range(2 * clients)}

    def draw():
        nonlocal state
        state = (state * 6364136223846793005 + 1442695040888963407) % 2**64
        return state // 2**33

    def send(key, m):
        counts["granted"] += 1
        sent.setdefault(key, []).append(m)

    for step in range(steps):
        epoch, key, act, v = step // 4, draw() % (2 * clients), draw() % 16, draw()
        past = pasts[holder[key], key]
        if act < 12:
            m = (max(0, epoch - v % 3), epoch + v // 3 % 3, v // 9 % 4) if act < 10 else (32 * epoch + v % 4, v // 4 % 3)
            if past.passes(m):
                past.entries.add(m)
                send(key, m)
            else:
                counts["refused"] += 1
        elif act < 14:
            counts["handovers"] += 1
            holder[key] = v % clients
            book = past.export()
            pasts.setdefault((holder[key], key), Past()).add(book)
        elif act == 14:
            counts["stops"] += 1
            m, call, written = (epoch, epoch + 1, 0), 1 + v // 2 % 4, v // 8 % 2 == 0
            if v % 2 == 0:
                continue
            if not past.passes(m):
                counts["refused"] += 1
            elif m in past.entries:
                send(key, m)
            elif call >= 3 and written:
                past.entries.add(m)
        else:
            past.prune()
    pairs = sum(conflict(ms[i], ms[j]) for ms in sent.values() for i in range(len(ms)) for j in range(i))
    lines = {"steps": steps, **counts, "unsafe": pairs}
    return "".join(f"{word} {count}\n" for word, count in lines.items())

def run(words):
    done = subprocess.run([program, "rehearse", *map(str, words)], capture_output=True, text=True)
    assert done.returncode == 0, done
    return done.stdout

draws = random.Random(seed)
asked = [(7, 16, 20000)] + [(draws.randrange(2**64), draws.randrange(1, 17), draws.randrange(2000)) for _ in range(runs)]
slowest = 0
for words in asked:
    wanted, before = rehearse(*words), time.time()
    got = run(words)
    slowest = max(slowest, time.time() - before)
    if got != wanted or run(words) != got:
        print(f"rehearse {words} differs (seed {seed}): wanted\n{wanted}got\n{got}")
        sys.exit(1)
print(f"rehearsals {len(asked)}, steps {sum(words[2] for words in asked)}, differences 0, the slowest {slowest:.2f} s")
PY
