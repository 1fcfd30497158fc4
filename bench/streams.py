"""The scenes of streams.sh: closed, full and left streams, and journals at odd paths."""
import itertools, os, resource, shutil, stat, subprocess, sys, tempfile

PROGRAM = sys.argv[1]
GENESIS = "0x" + "0" * 64
KEY = "0x" + "1" * 96
ACTIVATE = '{"op":"activate","pubkey":"%s"}\n' % KEY
BLOCK = '{"op":"block","pubkey":"%s","slot":"1","signing_root":"0x%s"}\n' % (KEY, "a" * 64)
FILE = (
    '{"metadata":{"interchange_format_version":"5","genesis_validators_root":"%s"},'
    '"data":[{"pubkey":"%s","signed_blocks":[{"slot":"7"}],"signed_attestations":[]}]}' % (GENESIS, KEY)
)
COMMANDS = {
    "session": (["session", "--genesis", GENESIS, "--journal"], ACTIVATE + BLOCK),
    "merge": (["merge", "--genesis", GENESIS, "--journal"], FILE),
    "show": (["show", "--genesis", GENESIS, "--journal"], ""),
    # (nothing listens at port 1, so no node answers)
    "serve": (["serve", "--genesis", GENESIS, "--signer", "http://127.0.0.1:1", "--listen", "127.0.0.1:0",
               "--token", "t", "--slots", "1", "--connections", "0", "http://127.0.0.1:1", "--journal"], ""),
}
rows = wrong = 0


def row(name, is_right, came):
    global rows, wrong
    rows += 1
    if not is_right:
        wrong += 1
    print(f"{'right' if is_right else 'WRONG'} {name}" + ("" if is_right else f": {came}"), flush=True)


class Place:
    """A folder with a journal in it, which may have a history."""

    def __init__(self, history=""):
        self.folder = tempfile.mkdtemp(prefix="validator-streams-")
        self.journal = f"{self.folder}/j"
        if history:
            words, text = COMMANDS["session"]
            run(words + [self.journal], text)

    def bytes(self):
        """What each file of the journal holds; None where it is absent, or no regular file."""
        return [self.read(end) for end in "ab"]

    def read(self, end):
        path = f"{self.journal}.{end}"
        if not os.path.exists(path) or not stat.S_ISREG(os.stat(path).st_mode):
            return None
        with open(path, "rb") as it:
            return it.read()

    def gone(self):
        shutil.rmtree(self.folder)


class Ended:
    def __init__(self, status, out, err):
        self.status, self.out, self.err = status, out, err

    def __repr__(self):
        return f"status {self.status}, output {self.out!r}, error {self.err!r}"


def run(words, text, closed=(), out=subprocess.PIPE, err=subprocess.PIPE, given=None, files=None, front=()):
    """Runs the program with these words. `closed` are the numbers of the streams that are closed at its start."""
    def begin():
        for number in closed:
            os.close(number)
        if files is not None:
            resource.setrlimit(resource.RLIMIT_NOFILE, (files, files))
    how = {"input": text.encode()} if given is None else {"stdin": given}
    ended = subprocess.run([*front, PROGRAM, *words], stdout=out, stderr=err, timeout=60, preexec_fn=begin, **how)
    return Ended(ended.returncode, ended.stdout, ended.stderr)


def closed_streams():
    for (name, (words, text)), history in itertools.product(COMMANDS.items(), ("", "with a history")):
        place = Place(history)
        whole = run(words + [place.journal], text)
        reached = place.bytes()
        place.gone()
        place = Place(history)
        run(words + [place.journal], "")
        unasked = place.bytes()
        place.gone()
        for closed in itertools.chain.from_iterable(itertools.combinations((0, 1, 2), n) for n in range(4)):
            place = Place(history)
            before = place.bytes()
            ended = run(words + [place.journal], text, closed)
            after = place.bytes()
            if 1 in closed:
                is_right = ended.status == 4 and after == before and not ended.out
            elif 0 in closed and text:
                # (an input that is closed is an empty one: no request of a session, and no file at all)
                is_right = ended.status == (12 if name == "merge" else 0) and after == unasked
            else:
                is_right = ended.status == whole.status and ended.out == whole.out and after == reached
            row(f"{name} {history or 'without one'}, closed: {closed or 'none'}", is_right, (ended, after == before))
            place.gone()


def other_words():
    for words in (["help"], ["--version"], ["rehearse", "1", "2", "20"], []):
        for closed in ((1,), (0, 1), (1, 2), (0, 1, 2)):
            ended = run(words, "", closed)
            row(f"{words} closed: {closed}", ended.status == 4, ended)
        for closed in ((), (0,), (2,), (0, 2)):
            ended = run(words, "", closed)
            row(f"{words} closed: {closed or 'none'}", ended.status == (0 if words else 2), ended)


def full_and_left():
    for name, (words, text) in COMMANDS.items():
        place = Place("with a history" if name == "show" else "")
        first = text.splitlines(True)[0] if name == "session" else text
        with open("/dev/full", "wb") as full:
            ended = run(words + [place.journal], text, out=full)
        after = place.bytes()
        place.gone()
        place = Place("with a history" if name == "show" else "")
        run(words + [place.journal], first)
        row(f"{name}, output full", ended.status == 4 and after == place.bytes(), ended)
        place.gone()
        place = Place("with a history" if name == "show" else "")
        reading, writing = os.pipe()
        os.close(reading)
        ended = run(words + [place.journal], text, out=writing)
        os.close(writing)
        row(f"{name}, nobody reads the output", ended.status == 4 and after == place.bytes(), ended)
        place.gone()
        place = Place("with a history" if name == "show" else "")
        plain = run(words + [place.journal], text)
        reached = place.bytes()
        place.gone()
        for err_name in ("/dev/full", "left"):
            place = Place("with a history" if name == "show" else "")
            if err_name == "left":
                reading, err = os.pipe()
                os.close(reading)
            else:
                err = os.open(err_name, os.O_WRONLY)
            ended = run(words + [place.journal], text, err=err)
            os.close(err)
            is_right = ended.status == plain.status and ended.out == plain.out and place.bytes() == reached
            row(f"{name}, error {err_name}", is_right, ended)
            place.gone()
    place = Place()
    with open("/dev/full", "rb") as zeros:
        ended = run(COMMANDS["merge"][0] + [place.journal], "", given=zeros)
    row("merge, an input of zeros without end", ended.status in (9, 12), ended.status)
    place.gone()
    place = Place()
    folder = os.open("/", os.O_RDONLY)
    ended = run(COMMANDS["session"][0] + [place.journal], "", given=folder)
    os.close(folder)
    row("session, the input is a directory", ended.status == 3, ended)
    place.gone()


def refused_paths():
    words, text = COMMANDS["session"]

    def scene(name, make, says, history="", ends="ab"):
        for end in ends:
            place = Place(history)
            path, other = f"{place.journal}.{end}", f"{place.journal}.{'ab'['ba'.index(end)]}"
            make(path, other)
            before = place.bytes()
            ended = run(words + [place.journal], text)
            # (a file that was made on the way and is empty is no journal yet)
            kept = all(now == was or was is None and now == b"" for was, now in zip(before, place.bytes()))
            row(f"{name} at .{end}", ended.status == 5 and says in ended.err and kept, (ended, before, place.bytes()))
            place.gone()

    scene("a directory", lambda path, _: os.mkdir(path), b"not a regular file")
    scene("a pipe", lambda path, _: os.mkfifo(path), b"not a regular file")
    scene("a link to /dev/null", lambda path, _: os.symlink("/dev/null", path), b"not a regular file")
    scene("a link to /dev/full", lambda path, _: os.symlink("/dev/full", path), b"not a regular file")
    scene("a link to a terminal", lambda path, _: os.symlink("/dev/tty", path), b"/j.")
    scene("a link to itself", lambda path, _: os.symlink(path, path), b"/j.")

    def linked(path, other):
        with open(path, "wb"):
            pass
        os.link(path, other)

    scene("one file by two names", linked, b"the same file", ends="a")
    scene("a link to the other file", lambda path, other: os.symlink(other, path), b"the same file")
    place = Place()
    ended = run(words + [f"{place.folder}/none/j"], text)
    row("no directory", ended.status == 5 and not os.listdir(place.folder), ended)
    place.gone()
    place = Place()
    kept = f"{place.folder}/kept"
    with open(kept, "wb"):
        pass
    os.symlink(kept, f"{place.journal}.a")
    ended = run(words + [place.journal], text)
    again = run(words + [place.journal], BLOCK.replace("a" * 64, "b" * 64))
    row("a link to a regular file serves", ended.status == 0 and b"double_block" in again.out, (ended, again))
    place.gone()
    place = Place()
    os.umask(0)
    run(words + [place.journal], text)
    modes = [stat.S_IMODE(os.stat(f"{place.journal}.{end}").st_mode) for end in "ab"]
    row("made for their owner alone", modes == [0o600, 0o600], [oct(it) for it in modes])
    os.umask(0o022)
    place.gone()


def streams_that_are_the_journal():
    for name, (words, text) in COMMANDS.items():
        for history, end, which, linked in itertools.product(("", "with a history"), "ab", ("0", "1", "2", "12", "012"), (False, True)):
            place = Place(history)
            path = f"{place.journal}.{end}"
            target = path
            if linked:
                target = f"{place.folder}/kept"
                if os.path.exists(path):
                    os.rename(path, target)
                os.symlink(target, path)
            opened = os.open(target, os.O_RDWR | os.O_CREAT | os.O_APPEND, 0o600)
            before = place.bytes()
            how = {"out": opened} if "1" in which else {}
            how |= {"err": opened} if "2" in which else {}
            how |= {"given": opened} if "0" in which else {}
            ended = run(words + [place.journal], text, **how)
            os.close(opened)
            same = all(was == now for was, now in zip(before, place.bytes()) if was is not None)
            # (serve asks its nodes before it opens a journal)
            is_served = name == "serve" and which == "0"
            told = (ended.err or b"") + (ended.out or b"")
            said = which in ("12", "012") or b"journal" in told or b"standard input" in told
            row(f"{name} {history or 'without one'}, the file .{end} is stream {which}{', by a link' if linked else ''}",
                same and (is_served and ended.status == 10 or ended.status == 5 and said), ended)
            place.gone()


def streams_that_are_a_journal():
    """Other words than those of the journal, with an output that is some journal's file; and such a file as the one stream
    that is left."""
    for words in (["help"], ["--version"], [], ["session", "--genesis", "0x00"], ["rehearse", "1", "2", "20"],
                  ["session", "--genesis", GENESIS], ["merge", "--genesis", GENESIS, "--journal", "/tmp/none/j"]):
        for which, append in itertools.product(("out", "err"), (0, os.O_APPEND)):
            place = Place("with a history")
            before = place.bytes()
            opened = os.open(f"{place.journal}.a", os.O_RDWR | append)
            ended = run(words, "", **{which: opened})
            os.close(opened)
            row(f"{words}, {which} is a journal's file{', append' if append else ''}", ended.status == 5 and place.bytes() == before, ended)
            place.gone()
    for name, (words, text) in COMMANDS.items():
        for append in (0, os.O_APPEND):
            place = Place("with a history")
            before = place.bytes()
            opened = os.open(f"{place.journal}.a", os.O_RDWR | append)
            ended = run(words + [place.journal], text, closed=(1,), err=opened)
            row(f"{name}, output closed, error is the journal's file", ended.status == 4 and place.bytes() == before, ended)
            ended = run(words + [place.journal], text, err=opened, files=3, closed=(0,))
            row(f"{name}, no free number, error is the journal's file", ended.status == 4 and place.bytes() == before, ended)
            os.close(opened)
            place.gone()
    if os.geteuid() == 0:
        place = Place("with a history")
        before = place.bytes()
        os.chmod(place.folder, 0o700)
        for which in ("out", "err"):
            with open(f"{place.journal}.a", "ab") as opened:
                ended = run(["show", "--genesis", GENESIS, "--journal", place.journal], "", **{which: opened},
                            front=["setpriv", "--reuid=65534", "--regid=65534", "--clear-groups"])
            row(f"a directory that cannot be read, {which} is the journal's file", ended.status == 5 and place.bytes() == before, ended)
        place.gone()


def streams_by_links():
    words, text = COMMANDS["session"]
    for stream in ("stdout", "stderr", "stdin"):
        place = Place()
        os.symlink(f"/dev/{stream}", f"{place.journal}.a")
        with open(f"{place.folder}/file", "w+b") as opened:
            how = {"stdout": {"out": opened}, "stderr": {"err": opened}, "stdin": {"given": opened}}[stream]
            ended = run(words + [place.journal], text, **how)
            size = os.path.getsize(f"{place.folder}/file")
        row(f"a link to /dev/{stream}", ended.status == 5 and size == 0, (ended, size))
        place.gone()


def few_numbers():
    words, text = COMMANDS["session"]
    place = Place()
    ended = run(words + [place.journal], text, closed=(1,), files=3)
    row("no free number, output closed", ended.status == 4 and place.bytes() == [None, None], ended)
    for files in (4, 5):
        ended = run(words + [place.journal], text, files=files)
        row(f"{files} numbers", ended.status == 5 and b"os error" in ended.err, ended)
    ended = run(words + [place.journal], text)
    row("enough numbers", ended.status == 0, ended)
    place.gone()


def other_systems():
    words, text = COMMANDS["session"]
    tried = subprocess.run(["unshare", "-m", "true"], stderr=subprocess.DEVNULL)
    if tried.returncode:
        print("not tried: a system without /dev/null or /proc (unshare is not allowed here)")
        return
    place = Place("with a history")
    before = place.bytes()
    plain = f"{place.folder}/plain"
    with open(plain, "wb") as it:
        it.write(BLOCK.encode())
    hidden = {
        "/dev/null is a file": f'mount --bind {plain} /dev/null && exec "$@"',
        "/dev/null is absent": f'mount --bind {place.folder} /dev && exec "$@"',
        "/dev/null is a pipe": f'mkfifo {place.folder}/pipe; mount --bind {place.folder}/pipe /dev/null && exec "$@"',
    }
    for (name, script), closed in itertools.product(hidden.items(), ((), (0,), (1,), (2,), (0, 1, 2))):
        ended = run(words + [place.journal], text, closed, front=["unshare", "-m", "sh", "-c", script, "sh"])
        row(f"{name}, closed: {closed or 'none'}", ended.status == 4 and place.bytes() == before, ended)
    script = f'mount --bind {place.folder} /proc && exec "$@"'
    for end, how in itertools.product("ab", ("out", "err")):
        with open(f"{place.journal}.{end}", "ab") as opened:
            ended = run(words + [place.journal], text, **{how: opened}, front=["unshare", "-m", "sh", "-c", script, "sh"])
        row(f"no /proc, the file .{end} is {how}", ended.status == 5 and place.bytes() == before, ended)
    place.gone()


closed_streams()
other_words()
full_and_left()
refused_paths()
streams_that_are_the_journal()
streams_that_are_a_journal()
streams_by_links()
few_numbers()
other_systems()
print(f"{rows} rows, {wrong} wrong")
sys.exit(1 if wrong else 0)
