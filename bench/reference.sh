#!/usr/bin/env bash
# Random sessions of the built program next to a plain reading of EIP-3076 in Python, written from the standard and not from the code:
# each imported file is kept apart and its conditions are looked at file by file. Slots and epochs are small, so that doubles, surrounds
# and repeats abound. The sessions of a round go over one journal, each a run of its own; between them `merge` and `show` are run.
# Each answer, each exported file and each line of `show` has to be what the reading says. Prints what was compared; the first
# difference is shown and ends it with status 1.
# A program that is built is run as it stands, else it is built first.
# Usage: bench/reference.sh [ROUNDS] [SEED]: that many rounds (100) of random numbers from this seed (1).
set -eu
cd "$(dirname "$0")/.."
program=$PWD/crates/validator/out/validator
[ -x "$program" ] || (cd crates/validator && rt run -- session --genesis "0x$(printf '0%.0s' {1..64})" < /dev/null > /dev/null 2>&1) || true
[ -x "$program" ] || { echo "the program is not built: run 'rt run' in crates/validator" >&2; exit 1; }
work=$(mktemp -d)
trap 'rm -rf "$work"' EXIT
python3 - "$program" "$work/journal" "${1:-100}" "${2:-1}" <<'PY'
import json, os, random, subprocess, sys
program, journal, rounds, seed = sys.argv[1], sys.argv[2], int(sys.argv[3]), int(sys.argv[4])
draw = random.Random(seed)
GENESIS = "0x" + "0" * 64
KEYS = ["0x" + d * 96 for d in "1c4"]
ROOTS = ["0x" + d * 64 for d in "ab"]
compact = lambda value: json.dumps(value, separators=(",", ":"), sort_keys=True)

# a block is (slot, root), a vote (source, target, root); the root of an entry may be None
absent_first = lambda root: (root is not None, root or "")
block_order = lambda b: (b[0], absent_first(b[1]))
vote_order = lambda v: (v[1], v[0], absent_first(v[2]))
surrounds = lambda a, b: a[0] < b[0] and b[1] < a[1]
same_root = lambda entry, m: entry[-1] is not None and entry[-1] == m[-1]
block_clashes = lambda e, m: e[0] == m[0] and not same_root(e, m)
double_vote = lambda e, m: e[1] == m[1] and not (e[0] == m[0] and same_root(e, m))
vote_clashes = lambda e, m: double_vote(e, m) or surrounds(m, e) or surrounds(e, m)

# EIP-3076, conditions 1 to 5, over one file's entries of a key
def file_refuses(blocks, votes, m):
    if len(m) == 2:
        repeats = any(e[0] == m[0] and same_root(e, m) for e in blocks)
        return any(block_clashes(e, m) for e in blocks) or (bool(blocks) and m[0] <= min(e[0] for e in blocks) and not repeats)
    repeats = any(e[:2] == m[:2] and same_root(e, m) for e in votes)
    return (any(vote_clashes(e, m) for e in votes) or (bool(votes) and m[0] < min(e[0] for e in votes))
            or (bool(votes) and m[1] <= min(e[1] for e in votes) and not repeats))

class Key:
    def __init__(self):
        self.files, self.blocks, self.votes, self.active = [], [], [], False

    def passes(self, m):
        own = self.blocks if len(m) == 2 else self.votes
        clashes = block_clashes if len(m) == 2 else vote_clashes
        return not any(file_refuses(*f, m) for f in self.files) and not any(clashes(e, m) for e in own)

    def floors(self):
        greatest = lambda values: max(values, default=None)
        return (greatest([min(e[0] for e in f[0]) for f in self.files if f[0]]),
                greatest([min(e[0] for e in f[1]) for f in self.files if f[1]]),
                greatest([min(e[1] for e in f[1]) for f in self.files if f[1]]))

    # the entries that still count, in the order of a file
    def kept(self):
        slot, source, target = self.floors()
        blocks = {e for f in self.files for e in f[0]} | set(self.blocks)
        votes = {e for f in self.files for e in f[1]} | set(self.votes)
        return (sorted((e for e in blocks if slot is None or e[0] >= slot), key=block_order),
                sorted((e for e in votes if target is None or e[1] >= target or e[0] > source), key=vote_order))

    # why a message is refused: None where nothing says so
    def verdict(self, m):
        (slot, source, target), (blocks, votes) = self.floors(), self.kept()
        if len(m) == 2:
            if slot is not None and m[0] < slot:
                return {"floor": str(slot), "reason": "slot_below"}
            found = [("double_block", [e for e in blocks if block_clashes(e, m)])]
        else:
            if source is not None and m[0] < source:
                return {"floor": str(source), "reason": "source_below"}
            if target is not None and m[1] < target:
                return {"floor": str(target), "reason": "target_below"}
            found = [("double_vote", [e for e in votes if double_vote(e, m)]), ("surrounds", [e for e in votes if surrounds(m, e)]),
                     ("surrounded", [e for e in votes if surrounds(e, m)])]
        for reason, entries in found:
            if entries:
                return {"entry": entry_of(entries[0]), "reason": reason}
        return None

    def greatest_vote(self):
        (_, source, target), (_, votes) = self.floors(), self.kept()
        if target is None and not votes:
            return None
        return max([e[0] for e in votes] + ([source] if source is not None else [])), max([e[1] for e in votes] + ([target] if target is not None else []))

    def export(self):
        (_, source, target), (blocks, votes) = self.floors(), self.kept()
        if target is None:
            return blocks, votes
        regular = (all(e[0] >= source and e[1] >= target for e in votes) and any(e[0] == source for e in votes) and any(e[1] == target for e in votes))
        return blocks, votes if regular else [self.greatest_vote() + (None,)]

    def prune(self):
        blocks, votes = self.kept()
        book_votes = []
        pair = self.greatest_vote()
        if pair is not None:
            at = [e for e in votes if e[1] == pair[1]]
            alone = len(at) == 1 and at[0][:2] == pair and at[0][2] is not None
            book_votes = [pair + (at[0][2] if alone else None,)]
        self.files.append(([e for e in blocks if e[0] == blocks[-1][0]] if blocks else [], book_votes))

def entry_of(e):
    named = {"slot": str(e[0])} if len(e) == 2 else {"source_epoch": str(e[0]), "target_epoch": str(e[1])}
    return named if e[-1] is None else {**named, "signing_root": e[-1]}

def file_text(books):
    data = [{"pubkey": k, "signed_blocks": [entry_of(e) for e in b], "signed_attestations": [entry_of(e) for e in v]} for k, (b, v) in books]
    return compact({"data": data, "metadata": {"genesis_validators_root": GENESIS, "interchange_format_version": "5"}})

def random_book():
    root = lambda: draw.choice(ROOTS + [None])
    blocks = [(draw.randrange(12), root()) for _ in range(draw.choice((0, 0, 1, 1, 2, 4)))]
    votes = [(s, s + draw.randrange(6), root()) for s in (draw.randrange(8) for _ in range(draw.choice((0, 1, 1, 2, 4))))]
    return blocks, votes

def merged(keys, books):
    together = {}
    for k, (b, v) in books:
        together.setdefault(k, ([], []))
        together[k][0].extend(b)
        together[k][1].extend(v)
    for k, book in together.items():
        keys.setdefault(k, Key()).files.append(book)
    return len(together)

signed_answer = lambda key, root: {"answer": "signed", "signature": key + root[2:] + "0" * 32, "signing_root": root}

# a random request, and the answer that the reading gives it
def request(keys):
    op, key = draw.choice(("merge", "block", "block", "block", "vote", "vote", "vote", "vote", "export", "prune", "activate")), draw.choice(KEYS)
    if op == "merge":
        books = [(draw.choice(KEYS), random_book()) for _ in range(draw.choice((0, 1, 1, 2, 3)))]
        return {"op": op, "file": file_text(books)}, {"answer": "merged", "keys": str(merged(keys, books))}
    if op == "activate":
        keys.setdefault(key, Key()).active = True
        return {"op": op, "pubkey": key}, {"answer": "active"}
    if op == "export":
        asked = draw.choice((None, draw.sample(KEYS, 2)))
        books = [(k, keys[k].export()) for k in sorted(keys) if asked is None or k in asked]
        return {"op": op, **({} if asked is None else {"pubkeys": asked})}, {"answer": "exported", "file": file_text(books)}
    if op == "prune":
        if key not in keys:
            return {"op": op, "pubkey": key}, {"answer": "refused", "reason": "unknown"}
        keys[key].prune()
        return {"op": op, "pubkey": key}, {"answer": "pruned"}
    root, first = draw.choice(ROOTS), draw.randrange(16)
    m = (first, root) if op == "block" else (first, first + draw.randrange(8), root)
    asked = {"op": op, "pubkey": key, **entry_of(m)}
    if key not in keys or not keys[key].active:
        return asked, {"answer": "refused", "reason": "not_active" if key in keys else "unknown"}
    refusal = keys[key].verdict(m)
    assert (refusal is None) == keys[key].passes(m), (m, refusal)
    if refusal is not None:
        return asked, {"answer": "refused", **refusal}
    (keys[key].blocks if op == "block" else keys[key].votes).append(m)
    return asked, signed_answer(key, root)

def run(words, given):
    done = subprocess.run([program, *words, "--genesis", GENESIS, "--journal", journal], input=given, capture_output=True, text=True)
    assert done.returncode == 0, done
    return done.stdout

def shown(keys):
    dash = lambda floor: "-" if floor is None else floor
    line = lambda k, r: "{} {} blocks {} votes {} floor_slot {} floor_source {} floor_target {}\n".format(
        k, "active" if r.active else "known", *(len(e) for e in r.kept()), *(dash(f) for f in r.floors()))
    return "".join(line(k, keys[k]) for k in sorted(keys))

def compare(what, asked, wanted, got):
    if wanted != got:
        print(f"{what} differs (seed {seed}): asked {asked}\nwanted {wanted}\ngot    {got}")
        sys.exit(1)

answers, kinds, shows = 0, {}, 0
for _ in range(rounds):
    for end in (".a", ".b"):
        if os.path.exists(journal + end):
            os.remove(journal + end)
    keys = {}
    for _ in range(3):
        pairs = [request(keys) for _ in range(draw.randrange(60))]
        got = run(["session"], "".join(compact(asked) + "\n" for asked, _ in pairs)).splitlines()
        compare("the number of answers", len(pairs), len(pairs), len(got))
        for (asked, wanted), line in zip(pairs, got):
            compare("an answer", compact(asked), compact(wanted), line)
            kind = wanted.get("reason", wanted["answer"])
            answers, kinds[kind] = answers + 1, kinds.get(kind, 0) + 1
        books = [(draw.choice(KEYS), random_book())]
        compare("the line of merge", "merge", f"merged {merged(keys, books)}\n", run(["merge"], file_text(books)))
        compare("the lines of show", "show", shown(keys), run(["show"], ""))
        shows += 1
print(f"rounds {rounds}, answers {answers}, listings {shows}, differences 0")
print(", ".join(f"{kind} {count}" for kind, count in sorted(kinds.items())))
PY
