#!/bin/sh
# Random interchange files read by the program next to a plain reading in Python, which builds the value of the whole text by json.loads
# and looks into it, written from EIP-3076 and docs/FORMATS.md and not from the code. Names and values are written with escapes,
# members come twice and in any order, numbers overflow, lists nest, elements are of other kinds, and bytes are broken. Of a file that is
# read the written text has to be the same, of one that is refused the reason. Prints what was compared; the first difference is shown
# and ends it with status 1.
# The program is built as lay_out.sh says.
# Usage: bench/interchange_reference.sh [FILES] [SEED]: that many files (10,000) of random numbers from this seed (1).
set -eu
cd "$(dirname "$0")/.."
. bench/lay_out.sh
python3 - "$program" "${1:-10000}" "${2:-1}" <<'PY'
import json, math, random, re, subprocess, sys
program, count, seed = sys.argv[1], int(sys.argv[2]), int(sys.argv[3])
draw = random.Random(seed)

# ---- the plain reading

class Refused(Exception): pass
class Number: pass

def refuse(reason): raise Refused(reason)
def missing(name): refuse(f"`{name}` is missing or of another kind")

def number(text):
    if not math.isfinite(float(text)): raise ValueError("out of range")
    return Number()

def constant(text): raise ValueError(text)

def is_text(text): return not any(0xD800 <= ord(c) < 0xE000 for c in text)

def check_texts(value):
    if isinstance(value, str) and not is_text(value): raise ValueError("half of a pair")
    if isinstance(value, list):
        for item in value: check_texts(item)

def members(pairs):
    for name, value in pairs:
        check_texts(name)
        check_texts(value)
    return dict(pairs)

def depth(text):
    deepest = now = 0
    for piece in re.findall(r'"(?:[^"\\]|\\.)*"|[\[\]{}]', text, re.S):
        now += {"[": 1, "{": 1, "]": -1, "}": -1}.get(piece, 0)
        deepest = max(deepest, now)
    return deepest

def value_of(data):
    try: text = data.decode("utf-8")
    except UnicodeDecodeError: refuse("the file is no UTF-8 text")
    try:
        value = json.loads(text, parse_int=number, parse_float=number, parse_constant=constant, object_pairs_hook=members)
        check_texts(value)
        if depth(text) > 127: raise ValueError("too deep")
        return value
    except (ValueError, RecursionError): refuse("the file is no JSON value")

def text_in(value, name):
    if not isinstance(value.get(name), str): missing(name)
    return value[name]

def number_in(value, name):
    text = text_in(value, name)
    if not re.fullmatch("[0-9]{1,20}", text) or int(text) >= 2 ** 64: refuse(f"`{name}` is no number")
    return int(text)

def hex_of(text, name, length):
    if not re.fullmatch("0x[0-9a-fA-F]{%d}" % (2 * length), text): refuse(f"`{name}` has not the hex digits of its length")
    return text.lower()

def root_in(value):
    if value.get("signing_root") is None: return None
    return hex_of(text_in(value, "signing_root"), "signing_root", 32)

def list_in(value, name):
    found = value.get(name)
    if found is not None and not isinstance(found, list): missing(name)
    return found or []

def want_object(value, name):
    if not isinstance(value, dict): missing(name)

def block_of(value):
    want_object(value, "signed_blocks")
    return number_in(value, "slot"), root_in(value)

def vote_of(value):
    want_object(value, "signed_attestations")
    source, target = number_in(value, "source_epoch"), number_in(value, "target_epoch")
    return target, source, root_in(value)

def file_of(data):
    value = value_of(data)
    want_object(value, "file")
    metadata = value.get("metadata")
    want_object(metadata, "metadata")
    version = text_in(metadata, "interchange_format_version")
    if version != "5": refuse(f"the format version is `{version}`, not `5`")
    genesis = hex_of(text_in(metadata, "genesis_validators_root"), "genesis_validators_root", 32)
    if not isinstance(value.get("data"), list): missing("data")
    books = {}
    for element in value["data"]:
        want_object(element, "data")
        key = hex_of(text_in(element, "pubkey"), "pubkey", 48)
        blocks = [block_of(block) for block in list_in(element, "signed_blocks")]
        votes = [vote_of(vote) for vote in list_in(element, "signed_attestations")]
        kept = books.setdefault(key, (set(), set()))
        kept[0].update(blocks)
        kept[1].update(votes)
    return genesis, books

def in_order(entries): return sorted(entries, key=lambda e: (e[:-1], e[-1] is not None, e[-1] or ""))
def with_root(root, rest): return ({} if root is None else {"signing_root": root}) | rest

def written(genesis, books):
    data = [{"pubkey": key,
             "signed_attestations": [with_root(root, {"source_epoch": str(source), "target_epoch": str(target)}) for target, source, root in in_order(books[key][1])],
             "signed_blocks": [with_root(root, {"slot": str(slot)}) for slot, root in in_order(books[key][0])]} for key in sorted(books)]
    return json.dumps({"data": data, "metadata": {"genesis_validators_root": genesis, "interchange_format_version": "5"}}, separators=(",", ":"))

def outcome(data):
    try: return written(*file_of(data)), True
    except Refused as refused: return str(refused), False

# ---- random files

KEYS = ["0x" + d * 96 for d in "1aB"]
ROOTS = ["0x" + d * 64 for d in "2cD"]
SPACES = [""] * 6 + [" ", "\t", "\r", "  "]
OVERFLOWS = ["1e999", "-1e999", "9" * 400, "-" + "9" * 310, "1" + "0" * 308 + "e1", "2e308"]
FINE = ["0", "-0", "1.5", "1e308", "-17", "9" * 300, "1e-999", "18446744073709551616"]
BROKEN = ["01", "+1", "1.", ".5", "tru", "nul", "{", "]", "[1,]", '{"a":1,}', '{"a" 1}', "[1 2]", '"\\ud800"', '"\\x41"', '"\\ud83d\\u0041"', "NaN", "Infinity", "'a'", "", "//", '"\x01"', "{1:2}", "{}{}"]

class Raw:
    def __init__(self, text): self.text = text

def chance(p): return draw.random() < p
def space(): return draw.choice(SPACES)

def text(chars):
    out = []
    for c in chars:
        if chance(escaping): out.append("\\u%04x" % ord(c) if chance(0.5) else "\\u%04X" % ord(c))
        elif c == "/" or c == '"' or c == "\\": out.append("\\" + c)
        else: out.append(c)
    return '"' + "".join(out) + '"'

def spelled(value):
    if isinstance(value, Raw): return value.text
    if isinstance(value, str): return text(value)
    if value is None: return "null"
    if isinstance(value, list):
        if value and isinstance(value[0], tuple): inner = ("," .join(space() + text(name) + space() + ":" + space() + spelled(v) + space() for name, v in value)); return "{" + inner + "}"
        return "[" + ",".join(space() + spelled(v) + space() for v in value) + space() + "]"
    return "{" + space() + "}"

def nested(n): return Raw("[" * n + "]" * n if chance(0.5) else '{"a":' * n + "1" + "}" * n)

def unknown():
    kind = draw.randrange(7)
    if kind == 0: return Raw(draw.choice(FINE))
    if kind == 1: return nested(draw.choice([1, 2, 5, 60, 118, 121, 122, 123]))
    if kind == 2: return draw.choice(["", "é", "\U0001F600", "a/b\"\\", "slot"])
    if kind == 3: return Raw(draw.choice(["true", "false", "null", '"\\ud83d\\ude00"', '"\\n\\t\\b\\f\\r"']))
    if kind == 4: return [("slot", "x"), ("pubkey", None)]
    if kind == 5: return [Raw("1"), [], {}]
    return {}

def other(): return draw.choice([Raw("1"), None, [], {}, Raw("true"), "x", Raw("1.5e3")])

def hurt(value):
    # one fault of a file: another kind, a text that is no reading, a number out of range, or no JSON
    return draw.choice([other, lambda: Raw(draw.choice(OVERFLOWS)), lambda: Raw(draw.choice(BROKEN)), unknown,
        lambda: draw.choice(["", "0x", "-1", "1 ", "18446744073709551616", "000000000000000000001", "0x" + "g" * 64, "0X" + "1" * 64, KEYS[0], ROOTS[0], "6", "05"]),
        lambda: nested(draw.choice([120, 126, 127, 128, 200]))])()

def maybe(value):
    global faults
    if faults and chance(0.08):
        faults -= 1
        return hurt(value)
    return value

def amount(): return draw.choice(["0", "1", "2", "7", "007", "18446744073709551615", "00000000000000000009", str(draw.randrange(2 ** 64))])

def objects(pairs):
    out = []
    for name, make in pairs:
        if faults and chance(0.03): continue
        if chance(repeating): out.append((name, hurt(None) if chance(0.5) else make()))
        out.append((name, maybe(make())))
    while chance(0.15): out.append((draw.choice(["note", "", "slott", "Slot", "data ", "é"]), unknown()))
    if chance(0.5): draw.shuffle(out)
    if repeating and chance(0.1): draw.shuffle(out)
    return out or {}

def root(): return draw.choice(ROOTS)
def optional(name, make): return [(name, make)] if chance(0.6) else [(name, lambda: None)] if chance(0.2) else []
def block(): return maybe(objects([("slot", amount)] + optional("signing_root", root)))
def vote(): return maybe(objects([("source_epoch", amount), ("target_epoch", amount)] + optional("signing_root", root)))
def several(make): return lambda: [make() for _ in range(draw.choice([0, 1, 1, 2, 3, 6]))]
def book(): return maybe(objects([("pubkey", lambda: draw.choice(KEYS))] + optional("signed_blocks", several(block)) + optional("signed_attestations", several(vote))))
def metadata(): return objects([("interchange_format_version", lambda: "5"), ("genesis_validators_root", root)])
def file(): return maybe(objects([("metadata", metadata), ("data", several(book))]))

def broken(data):
    data = bytearray(data)
    for _ in range(draw.choice([1, 1, 2, 4])):
        place = draw.randrange(len(data) + 1)
        way = draw.randrange(4)
        if way == 0: data[place:place + 1] = b""
        elif way == 1: data[place:place] = bytes([draw.choice(b'{}[]",:\\0e-. \xff\xc3\xe2\x01')])
        elif way == 2: data[place:place + 1] = bytes([draw.randrange(256)])
        else: data[place:] = b""
    return bytes(data)

def random_file():
    global faults, escaping, repeating
    faults, escaping, repeating = draw.choice([0, 0, 0, 1, 1, 2]), draw.choice([0, 0, 0.02, 0.3, 1]), draw.choice([0, 0, 0.1, 0.5])
    data = (space() + spelled(file()) + space()).encode("utf-8")
    return broken(data) if chance(0.12) else data

# ---- both

def differs(data, wanted, found):
    print(f"file:   {data!r}\nwanted: {wanted!r}\nfound:  {found!r}")
    sys.exit(1)

files = [random_file() for _ in range(count)]
read, reasons, lines, wanted = 0, {}, [], []
for data in files:
    told, is_read = outcome(data)
    read += is_read
    if not is_read: reasons[told] = reasons.get(told, 0) + 1
    if data and b"\n" not in data and "\n" not in told and not chance(0.02):
        lines.append(data)
        wanted.append(told.encode("utf-8"))
        continue
    if is_read: data = data.replace(b",", b"\n,\n") if b'"' in data and chance(0.5) and outcome(data.replace(b",", b"\n,\n"))[0] == told else data
    ran = subprocess.run([program, "interchange"], input=data, capture_output=True)
    found = (ran.stdout if is_read else ran.stderr).decode("utf-8")
    if ran.returncode != (0 if is_read else 1) or found != (told if is_read else told + "\n"): differs(data, told, found)
found = subprocess.run([program, "interchange", "lines"], input=b"\n".join(lines) + b"\n", capture_output=True, check=True).stdout.split(b"\n")[:-1]
for data, told, line in zip(lines, wanted, found):
    if told != line: differs(data, told, line)
if len(found) != len(wanted): differs(b"", len(wanted), len(found))
print(f"{count:,} files: {read:,} read, their written texts the same; {count - read:,} refused for {len(reasons)} reasons, the same")
PY
