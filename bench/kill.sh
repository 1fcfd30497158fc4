#!/usr/bin/env bash
# Kills the built program again and again while it signs, and looks after each restart whether all that was answered holds.
# The program signs a stream of growing slots of one key, over a journal on a real file, and is killed (SIGKILL) at a random
# moment; after each restart each slot that was answered as signed since the last look, and the highest of before, is proposed with
# another root and has to be refused. Prints the kills and how many signed slots were lost, which is to be 0.
# A program that is built is run as it stands, else it is built first.
# Usage: bench/kill.sh [KILLS] [FOLDER]: that many kills (50), the journal in this folder (a temporary one).
set -eu
cd "$(dirname "$0")/.."
kills=${1:-50}
program=$PWD/crates/validator/out/validator
[ -x "$program" ] || (cd crates/validator && rt run -- session --genesis "0x$(printf '0%.0s' {1..64})" < /dev/null > /dev/null 2>&1) || true
[ -x "$program" ] || { echo "the program is not built: run 'rt run' in crates/validator" >&2; exit 1; }
work=${2:-$(mktemp -d)}
mkdir -p "$work"
rm -f "$work/journal.a" "$work/journal.b"
python3 - "$program" "$work/journal" "$kills" <<'PY'
import json, random, subprocess, sys, threading, time
program, journal, kills = sys.argv[1], sys.argv[2], int(sys.argv[3])
words = [program, "session", "--genesis", "0x" + "0" * 64, "--journal", journal]
key = "0x" + "1" * 96
root, other = "0x" + "a" * 64, "0x" + "b" * 64
block = lambda slot, r: json.dumps({"op": "block", "pubkey": key, "slot": str(slot), "signing_root": r}) + "\n"
activate = json.dumps({"op": "activate", "pubkey": key}) + "\n"
random.seed(7)
next_slot, signed, lost, looked, made = 0, [], 0, 0, 0

def start():
    run = subprocess.Popen(words, stdin=subprocess.PIPE, stdout=subprocess.PIPE, text=True, bufsize=1)
    run.stdin.write(activate)
    run.stdin.flush()
    assert json.loads(run.stdout.readline())["answer"] == "active"
    return run

# after a restart: what was answered as signed is refused with another root
def look(run, slots):
    global looked, lost
    for slot in slots:
        run.stdin.write(block(slot, other))
        run.stdin.flush()
        answer = json.loads(run.stdout.readline())
        looked += 1
        if answer.get("answer") != "refused" or answer.get("reason") != "double_block":
            lost += 1
            print(f"slot {slot} was signed, and answered afterwards: {answer}")

# signs until the program is killed, and gives the slots that were answered as signed
def sign_until_killed(run):
    global next_slot
    slots = []
    timer = threading.Timer(random.uniform(0.001, 0.12), run.kill)
    timer.start()
    try:
        while True:
            run.stdin.write(block(next_slot, root))
            run.stdin.flush()
            line = run.stdout.readline()
            if not line.endswith("\n"):
                break
            answer = json.loads(line)
            assert answer["answer"] == "signed", answer
            slots.append(next_slot)
            next_slot += 1
    except BrokenPipeError:
        pass
    timer.join()
    run.kill()
    run.wait()
    next_slot += 1
    return slots

for kill in range(kills):
    run = start()
    look(run, signed)
    fresh = sign_until_killed(run)
    made += len(fresh)
    signed = signed[-1:] + fresh
run = start()
look(run, signed)
run.stdin.close()
run.wait()
print(f"kills {kills}, signed {made}, looked at again {looked}, lost {lost}")
sys.exit(1 if lost else 0)
PY
