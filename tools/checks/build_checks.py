"""Checks of when ./lineage proves or builds the program, which program answers then, and what it says of that.

In place of the toolchain stands one that notes how it was called, proves nothing, and gives the program that is
there as what it builds. The program is changed by a byte at its end, so that a proved one and one that was built
without proofs differ.
"""
import os
import shutil
import stat
import subprocess
import tempfile
import time

from checks.limits import by_clock
from checks.program_cases import GENERATED
from lineage import kept, sources
from lineage.lineage_build import CRATE, Proofs, crates_below
from lineage.statuses import NOT_BUILT, NOT_INSTALLED, NOT_PROVED, USAGE

# After so many seconds a file that was read is known to stand.
TICK = 2
# And so many are more than a tick of the clock of the file system of temporary files.
CLOCK = 0.02
# What the wrapper needs, and what stands in for the toolchain.
TOOLS = ["bash", "sh", "python3", "dirname", "readlink", "cp", "mkdir", "sleep", "cat", "git"]
KIT = "a toolchain of these checks"
FAKE_RT = f"""\
#!/bin/sh
echo "$*" >> FOLDER/calls
case $1 in
version) echo "{KIT}"; exit ;;
doc) echo FOLDER/kit/page; exit ;;
esac
[ -e FOLDER/fails ] && exit 1
if [ -e FOLDER/hangs ]; then echo $$ > FOLDER/hangs; exec sleep 60; fi
case $1 in
try)
  mkdir -p $TMPDIR/first $TMPDIR/try
  echo none > $TMPDIR/first/module.bc; echo > $TMPDIR/first/next
  printf 'module%05000d' 0 > $TMPDIR/try/module.bc; echo > $TMPDIR/try/next
  sleep 60 ;;
run) cp FOLDER/proved TREE/crates/lineage/out/lineage ;;
esac
echo "== crate"
echo "logic=proved functions=3"
"""
# The compiler writes its last word from its fifth; the linker what follows -o, from the word after that.
FAKE_CLANG = """\
#!/bin/sh
echo clang >> FOLDER/calls
for word; do last=$word; done
cp "$5" "$last"
"""
FAKE_LINK = """\
#!/bin/sh
echo link >> FOLDER/calls
while [ "$1" != -o ]; do shift; done
case $(cat "$3") in module*) cp FOLDER/unproved "$2" ;; *) exit 1 ;; esac
"""
PROVING = ["all check", "run -- scan hist raw/a 0", "version"]
BUILDING = ["try", "doc", "clang", "link", "version"]
GEN = ["gen", "1", "0"]
# How many seconds of a processor a run may take, and how often it is looked how far one is.
RUN_LIMIT = 60
PERIOD = 0.1
# The status of a run that was asked to end.
ENDED = 143
# What of the wrapper's record of the sources is looked at before an answer, and how many seconds of a processor an
# answer over as many sources as there are may take: the least of some runs. docs/performance.md has what it takes.
RECORD = "out/lineage.kept"
ANSWER_LIMIT = 0.15
ANSWERS = 5
NOT_YET = "not proved: this clone has not checked the proofs"
NOT_ANY_MORE = "not proved any more"


def put(path, text, mode=0o644):
    os.makedirs(os.path.dirname(path), exist_ok=True)
    with open(path, "w", encoding="utf-8") as file:
        file.write(text)
    os.chmod(path, mode)


class Clone:
    """A tree with ./lineage, and a toolchain that stands in for the true one."""

    def __init__(self, checks, tree, folder):
        self.checks, self.tree, self.folder = checks, tree, folder
        self.tools, self.proved = f"{folder}/bin", f"{tree}/crates/lineage/out/lineage"
        self.source = f"{tree}/crates/lineage/src/main.rt"
        os.mkdir(self.tools)
        for name in TOOLS:
            os.symlink(shutil.which(name), f"{self.tools}/{name}")
        for name, last in ("proved", b"\0"), ("unproved", b"\1"):
            shutil.copy(self.proved, f"{folder}/{name}")
            with open(f"{folder}/{name}", "ab") as file:
                file.write(last)
        self.fake(f"{folder}/kit/toolchain/bin/clang", FAKE_CLANG)
        self.fake(f"{folder}/kit/bin/rattle-link", FAKE_LINK)

    def fake(self, path, text):
        put(path, text.replace("FOLDER", self.folder).replace("TREE", self.tree), 0o755)

    def take_toolchain(self):
        self.fake(f"{self.tools}/rt", FAKE_RT)

    def run(self, words):
        """What is printed, the status, what is said, and how the toolchain was called."""
        put(f"{self.folder}/calls", "")
        streams = {"stdin": subprocess.DEVNULL, "stdout": subprocess.PIPE, "stderr": subprocess.PIPE}
        environment = {**os.environ, "PATH": self.tools}
        ran = subprocess.run([f"{self.tree}/lineage", *words], env=environment, cwd=self.folder, **streams)
        with open(f"{self.folder}/calls", encoding="utf-8") as file:
            calls = [line.split(" --jobs")[0].rstrip("\n") for line in file]
        return ran.stdout, ran.returncode, ran.stderr.decode(), calls

    def ask(self, name, words, status, calls, said="", printed=None):
        """Whether a run ends so, calls the toolchain so, and says this, or nothing of a proof. What it prints is
        that of the program where it ends well, unless it is another's."""
        out, ended, told, made = self.run(words)
        self.checks.same(f"status and calls where {name}", (ended, made), (status, calls))
        if printed is None:
            printed = b"" if status else GENERATED
        if printed is not Ellipsis:
            self.checks.same(f"what is printed where {name}", out, printed)
        is_said = said in told if said else "proved" not in told
        self.checks.holds(f"what is said where {name}: {told!r} has {said!r}", is_said)
        return out.decode(errors="replace")


def check(checks, tree, folder):
    """Makes these checks in a tree whose program is there, and marked as proved."""
    progress_of_proofs(checks)
    records(checks)
    clone = Clone(checks, tree, folder)
    ask, source, fails = clone.ask, clone.source, f"{folder}/fails"
    ask("nothing changed", GEN, 0, [])
    ask("nothing changed and it must be proved", ["--proved", *GEN], 0, [])
    ask("it must be proved and the words are none", ["--proved"], USAGE, [], "the commands are", b"usage\n")
    put(source, "one\n")
    ask("a source is new and there is no toolchain", GEN, NOT_BUILT, [], "no `rt` on the path")
    clone.take_toolchain()
    put(fails, "")
    ask("a quick build fails", GEN, NOT_BUILT, ["try"], "the program wasn't built: rt try")
    ask("a proof fails", ["--prove"], NOT_BUILT, PROVING[:1], "wasn't proved and built")
    os.remove(fails)
    ask("a source is new", GEN, 0, BUILDING, NOT_ANY_MORE)
    ask("it was built without proofs since", GEN, 0, [], NOT_ANY_MORE)
    same_bytes(clone, "out/unproved/lineage", "unproved")
    refuse_unproved(clone, "the sources are others")
    ask("it is proved", ["--prove"], 0, PROVING, "from now on `./lineage` runs the proved program", b"")
    ask("it was proved since", GEN, 0, [])
    same_bytes(clone, "crates/lineage/out/lineage", "proved")
    ask("it is proved again", ["--prove"], 0, [], "is that of these sources, and proved", b"")
    time.sleep(TICK + 0.5)
    ask("it was proved long since", GEN, 0, [])
    ask("what was read then is kept", GEN, 0, [])
    take_proved(clone)
    changes_of_sources(clone)
    changes_of_toolchain(clone)
    answers_in_time(clone)
    put(source, "two\n")
    ask("a source changed and not its size", GEN, 0, BUILDING, NOT_ANY_MORE)
    put(source, "one\n")
    ask("it is as it was when it was proved", GEN, 0, [])
    os.remove(source)
    ask("a source is gone", GEN, 0, BUILDING, NOT_ANY_MORE)
    with open(clone.proved, "ab") as file:
        file.write(b"\0")
    put(source, "one\n")
    ask("the proved program was changed", GEN, 0, BUILDING, NOT_ANY_MORE)
    shutil.rmtree(f"{tree}/out")
    builds_that_end(clone)
    shutil.rmtree(f"{tree}/out")
    ask("nothing was built here", GEN, 0, BUILDING, NOT_YET)
    ask("it was built here without proofs", GEN, 0, [], NOT_YET)
    refuse_unproved(clone, "no proved program here")
    ask("the input is none", ["scan", "hist", "raw/a", "0"], 9, [], NOT_YET, b"beyond empty\n")


def progress_of_proofs(checks):
    """How far the proofs are is told by the lines of `rt`: of three crates the first was kept from
    before, and the second, which is half as long as the third, took a minute. Reading the sources
    took half a minute."""
    proofs = Proofs({"first": 100, "second": 300, "third": 600})
    for line, seconds, text in [
        ("only=0 proved=0\n", 30, "proved 0 of 3 crates, 0 functions, after 0 min 30 s"),
        ("== first\n", 31, "proved 1 of 3 crates, 0 functions, after 0 min 31 s"),
        ("== second\n", 90, "proved 2 of 3 crates, 0 functions, after 1 min 30 s"),
        ("logic=proved functions=3 sum=0\n", 90, "proved 2 of 3 crates, 3 functions, after 1 min 30 s; some 2 min left"),
        ("== third\n", 210, "proved 3 of 3 crates, 3 functions, after 3 min 30 s"),
        ("logic=proved functions=9 sum=0\n", 210, "proved 3 of 3 crates, 12 functions, after 3 min 30 s"),
        ("== summary\n", 211, "proved 3 of 3 crates, 12 functions, after 3 min 31 s"),
    ]:
        proofs.read(line, seconds)
        checks.same(f"how far the proofs are after {line!r}", proofs.text(seconds), text)
    below = crates_below(CRATE)
    tests = [crate for crate in below if crate.endswith("_tests") or crate == "run_cases"]
    checks.same("crates of tests that `--prove` proves", tests, [])
    checks.holds("it proves the program and what it stands on", {"lineage", "chain_cli", "lc_base"} <= below.keys())


# ---- what has changed


def with_time(path, text):
    """Writes a file, and puts its time back."""
    before = os.stat(path)
    put(path, text)
    os.utime(path, ns=(before.st_atime_ns, before.st_mtime_ns))


def add_folder(tree):
    put(f"{tree}/crates/lineage/proofs/new/Added.antt", "")


def add_crate(tree):
    put(f"{tree}/crates/other/src/lib.rt", "")


def rename(tree):
    os.rename(f"{tree}/crates/lineage/src/main.rt", f"{tree}/crates/lineage/src/moved.rt")


def rename_back(tree):
    os.rename(f"{tree}/crates/lineage/src/moved.rt", f"{tree}/crates/lineage/src/main.rt")


# What is changed in a tree whose source is `one`, and how that is undone.
CHANGES = {
    "a source changed, and its time was put back": (
        lambda tree: with_time(f"{tree}/crates/lineage/src/main.rt", "two\n"),
        lambda tree: with_time(f"{tree}/crates/lineage/src/main.rt", "one\n"),
    ),
    "a file is added in a new folder": (add_folder, lambda tree: shutil.rmtree(f"{tree}/crates/lineage/proofs")),
    "a file is added beside a source": (
        lambda tree: put(f"{tree}/crates/lineage/src/other.rt", ""),
        lambda tree: os.remove(f"{tree}/crates/lineage/src/other.rt"),
    ),
    "a crate is added": (add_crate, lambda tree: shutil.rmtree(f"{tree}/crates/other")),
    "a source is renamed": (rename, rename_back),
    "a source is removed": (
        lambda tree: os.remove(f"{tree}/crates/lineage/src/main.rt"),
        lambda tree: put(f"{tree}/crates/lineage/src/main.rt", "one\n"),
    ),
    "a list is removed": (
        lambda tree: os.rename(f"{tree}/HANDLES", f"{tree}/HANDLED"),
        lambda tree: os.rename(f"{tree}/HANDLED", f"{tree}/HANDLES"),
    ),
}


def settle(path):
    """Has a record stand, as if what it is of had changed long before: as it does after a tick."""
    text = text_of(path)
    _, _, rest = text.partition("\n\n")
    put(path, f"{kept.SETTLED} {time.time_ns() + kept.TICK}\n\n{rest}")


def records(checks):
    """A record stands as long as nothing changes that it is of; what a change leaves is a record's of its own. One
    that was begun shortly after something changed doesn't stand, and what had not settled in it isn't known."""
    with tempfile.TemporaryDirectory() as top:
        file, paths = f"{top}/record", ["crates", "crates/lineage", "crates/lineage/src", "crates/lineage/src/main.rt"]
        paths += ["crates/lineage/proofs", "HANDLES"]
        put(f"{top}/HANDLES", "none\n")
        put(f"{top}/{paths[3]}", "one\n")

        def keep(begun):
            stamps = {path: kept.stamp_of(f"{top}/{path}") for path in paths}
            kept.Record(file, top).keep(begun, ["found"], stamps, {paths[3]: "digest"})

        for name, (change, undo) in CHANGES.items():
            for text, make in ((name, change), (f"{name}, and that is undone", undo)):
                keep(time.time_ns() + kept.TICK)
                checks.holds(f"a record stands before {text}", kept.Record(file, top).stands())
                time.sleep(CLOCK)
                make(top)
                checks.holds(f"a record doesn't stand where {text}", not kept.Record(file, top).stands())
        keep(time.time_ns())
        record = kept.Record(file, top)
        checks.same("a record of what has just changed", (record.stands(), record.settled_digests()), (False, {}))
        keep(time.time_ns() + kept.TICK)
        record, stamp = kept.Record(file, top), kept.stamp_of(f"{top}/{paths[3]}")
        checks.same("what is known of a record", record.settled_digests(), {(stamp, paths[3]): "digest"})
        for text in ("", "settled", "settled x\n\n\n\na\n\nb", "settled 1\n\nfound\n\n1 a\n\nb c"):
            put(file, text)
            record = kept.Record(file, top)
            checks.same(f"a record that is {text!r}", (record.stands(), record.settled_digests()), (False, {}))


def changes_of_sources(clone):
    """Each change of the sources is noticed before the next answer, and that it is undone; and where nothing changed
    the record stays as it is."""
    record = f"{clone.tree}/{RECORD}"
    for name, (change, undo) in CHANGES.items():
        settle(record)
        change(clone.tree)
        clone.ask(name, GEN, 0, BUILDING, NOT_ANY_MORE)
        settle(record)
        undo(clone.tree)
        clone.ask(f"{name}, and that is undone", GEN, 0, [])
    settle(record)
    stamp = kept.stamp_of(record)
    clone.ask("nothing changed since", GEN, 0, [])
    clone.checks.same("the record where nothing changed", kept.stamp_of(record), stamp)


def changes_of_toolchain(clone):
    """Another toolchain is noticed by its file. Where that isn't there, it is taken for the one that proved."""
    path = f"{clone.folder}/KIT-ID"
    put(path, f"{KIT}\n")
    clone.ask("the toolchain is the one that proved", GEN, 0, [])
    put(path, "another toolchain\n")
    for words in (["--proved", *GEN], ["--install", "installed"]):
        clone.ask(f"the toolchain is another, by {words[0]}", words, NOT_PROVED, [], "the toolchain is another")
    building = [call for call in BUILDING if call != "version"]
    clone.ask("the toolchain is another", GEN, 0, building, f"{NOT_ANY_MORE}: the toolchain is another")
    clone.ask("it was built by that", GEN, 0, [], NOT_ANY_MORE)
    put(path, f"{KIT}\n")
    clone.ask("the toolchain is the first again", GEN, 0, [])
    os.remove(path)
    clone.ask("the toolchain doesn't say its name", GEN, 0, [])


def answers_in_time(clone):
    """Over as many sources as there are in this repository an answer takes little of a processor."""
    look = sources.Look({})
    look.sources()
    added = [path for path in look.digests if path.startswith(f"{sources.CRATES}/")]
    for path in added:
        put(f"{clone.tree}/{sources.CRATES}/of_{path.removeprefix(f'{sources.CRATES}/')}", "")
    subprocess.run([f"{clone.tree}/tools/lineage/mark-built"], check=True)
    clone.ask("there are many sources", GEN, 0, [])
    settle(f"{clone.tree}/{RECORD}")
    clone.ask("there are many sources, which are kept", GEN, 0, [])
    least = min(seconds_of(clone, GEN) for _ in range(ANSWERS))
    name = f"an answer over {len(added)} sources takes {least:.3f} s of a processor, and less than {ANSWER_LIMIT}"
    clone.checks.holds(name, least < ANSWER_LIMIT)
    for crate in {path.split("/")[1] for path in added}:
        shutil.rmtree(f"{clone.tree}/{sources.CRATES}/of_{crate}")
    subprocess.run([f"{clone.tree}/tools/lineage/mark-built"], check=True)


def seconds_of(clone, words):
    """How many seconds of a processor a run takes, with the program."""
    streams = {"stdin": subprocess.DEVNULL, "stdout": subprocess.DEVNULL, "stderr": subprocess.DEVNULL}
    environment = {**os.environ, "PATH": clone.tools}
    ran = subprocess.Popen([f"{clone.tree}/lineage", *words], env=environment, cwd=clone.folder, **streams)
    _, status, used = os.wait4(ran.pid, 0)
    ran.returncode = os.waitstatus_to_exitcode(status)
    return used.ru_utime + used.ru_stime


# ---- builds


def builds_that_end(clone):
    """A build that is ended leaves nothing behind, and one that waited for it goes on."""
    hangs, environment = f"{clone.folder}/hangs", {**os.environ, "PATH": clone.tools}
    put(hangs, "")
    how = {"env": environment, "cwd": clone.folder, "stdin": subprocess.DEVNULL}
    streams = {"stdout": subprocess.PIPE, "stderr": subprocess.PIPE, "text": True, "errors": "replace"}
    first = subprocess.Popen([f"{clone.tree}/lineage", *GEN], **how, **streams)
    while not (started := text_of(hangs)):
        time.sleep(PERIOD)
    second = subprocess.Popen([f"{clone.tree}/lineage", *GEN], **how, **streams)
    said = [second.stderr.readline() for _ in range(2)]
    clone.checks.holds(f"{said} says that it waits", "waiting for another build to end" in said[1])
    os.remove(hangs)
    first.terminate()
    clone.checks.same("the status of a build that is ended", first.wait(by_clock(RUN_LIMIT)), ENDED)
    clone.checks.holds("the toolchain is ended with it", not os.path.exists(f"/proc/{started.strip()}"))
    clone.checks.same("the status of one that waited", second.wait(by_clock(RUN_LIMIT)), 0)
    left = sorted(os.listdir(f"{clone.tree}/out/unproved"))
    clone.checks.same("what builds leave", left, ["lineage", "lineage.built", "lock"])


def text_of(path):
    with open(path, encoding="utf-8") as file:
        return file.read()


def same_bytes(clone, path, name):
    """The program at a path of the tree is what the toolchain gave."""
    with open(f"{clone.tree}/{path}", "rb") as built, open(f"{clone.folder}/{name}", "rb") as given:
        clone.checks.holds(f"{path} is the {name} program", built.read() == given.read())


def refuse_unproved(clone, why):
    """Where no program is proved, `--proved` and `--install` end with a status of their own."""
    empty = f"{clone.folder}/empty"
    os.makedirs(empty, exist_ok=True)
    for words in (["--proved", *GEN], ["--proved", "no", "command"], ["--install", "empty"], ["--install"]):
        clone.ask(f"it isn't proved, by {' '.join(words)}", words, NOT_PROVED, [], why)
    clone.checks.same("what is installed where it isn't proved", os.listdir(empty), [])
    said = clone.ask("it isn't proved, by --version", ["--version"], 0, [], printed=...)
    clone.checks.holds(f"{said!r} says so", "\nproved no\n" in said and f"\nkit {KIT}\n" in said)


def take_proved(clone):
    """A proved program is installed alone, and `--version` says that it is proved."""
    folder = f"{clone.folder}/installed"
    clone.ask("it can't be installed", ["--install", "installed"], NOT_INSTALLED, [], "can't be copied")
    os.mkdir(folder)
    printed = b"installed/lineage\n"
    clone.ask("it is installed", ["--install", "installed"], 0, [], printed=printed)
    clone.ask("it is installed again", ["--install", "installed"], 0, [], printed=printed)
    clone.checks.same("what is installed", os.listdir(folder), ["lineage"])
    mode = stat.S_IMODE(os.stat(f"{folder}/lineage").st_mode)
    clone.checks.same("the mode of what is installed", mode, 0o755)
    ran = subprocess.run([f"{folder}/lineage", *GEN], stdout=subprocess.PIPE)
    clone.checks.same("what is installed prints", ran.stdout, GENERATED)
    with open(clone.proved, "rb") as file, open(f"{folder}/lineage", "rb") as copy:
        clone.checks.holds("what is installed is the proved program", file.read() == copy.read())
    digest = subprocess.run(["sha256sum", clone.proved], stdout=subprocess.PIPE, text=True).stdout.split()[0]
    said = clone.ask("it is proved, by --version", ["--version"], 0, [], printed=...)
    is_so = "\nproved yes\n" in said and f"\nkit {KIT}\n" in said and f"\nprogram {digest}\n" in said
    clone.checks.holds(f"{said!r} says so", is_so)
    clone.ask("--version has a word too many", ["--version", "1"], USAGE, [], "not the words")
    clone.ask("the words are none", ["--prove", "1"], USAGE, [], "not the words")
    clone.ask("the word is none", ["--proven"], USAGE, [], "is no command", b"usage\n")
