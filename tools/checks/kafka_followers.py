"""A leader and some followers of it, over frames in the partitions of a topic, for tools/checks/try-kafka.

The topic has each block of the leader's chain once or twice, in a partition that is drawn. A follower reads all of it
again and again, in whatever order it comes, and is killed after some of its lines, or left to its end; and once what
it reads ends within a frame, where the topic can be cut. After each run it has each block of which it told; and its
root at its last block is the leader's there. In the end all roots agree.
"""
import contextlib
import os
import random
import re
import signal
import subprocess
import tempfile
import threading

from cases.block_files import block_file, sets
from cases.log_cases import DONE, REFUSED, frames_of, log_of
from checks import log_runs
from checks.limits import by_clock, limited

SEED = 6
FOLLOWERS = 3
PARTITIONS = 3
BLOCKS = 150
# A follower must be at the end after so many runs, of which the first ones are killed, and the next one is cut.
RUNS, KILLED = 12, 6
TOPIC = "frames"
# How long one waits for a broker and a reader, which wait for each other.
LIMIT = by_clock(60)
ACKNOWLEDGED = re.compile(r"(?:block|known) (\d+)\b")


def leaders_file():
    """The block file of the leader: blocks of one Set each over a few keys, each from the one before."""
    return block_file([[sets(f"raw/{at % 7}", at, [f"raw/{(at - 1) % 7}"])] for at in range(BLOCKS)])


def sent(frames, draws):
    """The messages of each partition: each frame in one of them, and some in two."""
    partitions = [[] for _ in range(PARTITIONS)]
    for frame in frames:
        for partition in draws.sample(partitions, draws.choice([1, 1, 1, 2])):
            partition.append(frame)
    return partitions


class Stored:
    """Stands in for a broker and for kcat: gives the messages of all partitions, each in its order, and these among
    each other in any."""

    can_be_cut = True

    def __init__(self, partitions, draws):
        self.partitions, self.draws, self.whole = partitions, draws, 0

    def frames(self):
        rest = [list(partition) for partition in self.partitions]
        # Now and then one partition is read whole before the others.
        ahead = self.draws.choice([1, 3, 30, 1_000])
        while any(rest):
            partition = self.draws.choice([partition for partition in rest if partition])
            yield from partition[:ahead]
            del partition[:ahead]

    @contextlib.contextmanager
    def source(self, is_cut):
        """A descriptor that a program reads the messages from: all of them, or some and then a part of one. How many
        are whole is kept."""
        reading, writing = os.pipe()
        frames = list(self.frames())
        self.whole = self.draws.randrange(len(frames)) if is_cut else len(frames)
        if is_cut:
            part = frames[self.whole]
            frames = [*frames[: self.whole], part[: self.draws.randrange(1, len(part))]]
        writer = threading.Thread(target=write_all, args=(writing, frames))
        writer.start()
        try:
            yield reading
        finally:
            os.close(reading)
            writer.join()


def write_all(file, frames):
    """Writes frames to a pipe as long as it is read."""
    with contextlib.suppress(BrokenPipeError):
        for frame in frames:
            while frame:
                frame = frame[os.write(file, frame) :]
    os.close(file)


class Served:
    """The topic of a broker, which kcat reads."""

    can_be_cut = False

    def __init__(self, address, partitions, folder):
        self.address = address
        for at, partition in enumerate(partitions):
            paths = []
            for number, frame in enumerate(partition):
                paths.append(os.path.join(folder, f"frame-{at}-{number:04}"))
                with open(paths[-1], "wb") as file:
                    file.write(frame[4:])
            words = f"kcat -P -b {address} -t {TOPIC} -p {at}".split()
            subprocess.run([*words, *paths], check=True, timeout=LIMIT)

    @contextlib.contextmanager
    def source(self, _):
        """What kcat prints of all partitions, by the command of docs/follow.md."""
        words = f"kcat -C -b {self.address} -t {TOPIC} -o beginning -e -q -f %R%s".split()
        with subprocess.Popen(words, stdout=subprocess.PIPE, stderr=subprocess.DEVNULL) as reader:
            try:
                yield reader.stdout.fileno()
            finally:
                reader.kill()


class OneFollower:
    """A follower: its folder, and how many blocks are sure to be in its log."""

    def __init__(self, program, topic, folder):
        self.program, self.topic, self.folder, self.sure = program, topic, folder, 0

    def run(self, lines, is_cut):
        """Delivers what the topic has, or a part of it, and kills the program after so many lines, if any number is
        given: its lines, and its status."""
        with self.topic.source(is_cut) as source:
            process = log_runs.start_storing(self.program, self.folder, source, "follow")
            told = "".join(log_runs.read_line(process) for _ in range(lines or 0))
            if lines is not None:
                process.send_signal(signal.SIGKILL)
            with process.stdout:
                told += log_runs.without_roots(process.stdout.read().decode("ascii"))
            status = process.wait(LIMIT)
        self.sure = max([self.sure, *(int(number) + 1 for number in ACKNOWLEDGED.findall(told))])
        return told, status

    def root(self):
        """What it tells of its root."""
        told, _ = log_runs.ask(self.program, self.folder, "root")
        return told


def follow_all(checks, program, topic, name, roots, log):
    """Some followers over a topic, each until it has all blocks; the roots are those of the leader."""
    draws = random.Random(SEED)
    for number in range(FOLLOWERS):
        with tempfile.TemporaryDirectory() as folder:
            follower, runs = OneFollower(program, topic, folder), 0
            while follower.root() != roots[-1] and runs < RUNS:
                lines = draws.randrange(BLOCKS) if runs < KILLED else None
                is_cut = runs == KILLED and topic.can_be_cut
                told, status = follower.run(lines, is_cut)
                runs += 1
                what = f"follower {number} over {name}, run {runs}"
                is_killed = lines is not None and status == -signal.SIGKILL
                checks.holds(f"{what}: status {status}", is_killed or status == (REFUSED if is_cut else DONE))
                held = len(log_runs.held_frames(log_runs.read_log(folder)))
                checks.holds(f"{what}: {held} blocks, of which {follower.sure} were told of", held >= follower.sure)
                if held:
                    checks.same(f"{what}: root", follower.root(), roots[held - 1])
                if lines is None:
                    last = told.splitlines()[-1]
                    end = f"refused frame {topic.whole} truncated" if is_cut else f"follow blocks {held} waiting "
                    checks.holds(f"{what}: last line {last}", last.startswith(end))
            checks.same(f"follower {number} over {name}, in the end", follower.root(), roots[-1])
            checks.same(f"log of follower {number} over {name}", log_runs.read_log(folder), log)


def leader(checks, program, file):
    """What `root` of each block tells, by the lines of the leader's `append`."""
    with tempfile.TemporaryDirectory() as folder:
        streams = {"input": file, "stdout": subprocess.PIPE, **limited(log_runs.RUN_LIMIT)}
        ran = subprocess.run([program, "append"], cwd=folder, **streams)
        lines = ran.stdout.decode("ascii").splitlines()
        checks.same("the leader", (len(lines), ran.returncode), (BLOCKS, DONE))
        roots = [f"root {at} {line.split()[-1]}\n" for at, line in enumerate(lines)]
        checks.same("the leader's root", log_runs.ask(program, folder, "root"), (roots[-1], DONE))
        return roots


def try_followers(checks, program, topic_of, name):
    """Followers over the topic that is made of the messages of each partition."""
    file = leaders_file()
    roots = leader(checks, program, file)
    topic = topic_of(sent(frames_of(file), random.Random(SEED)))
    follow_all(checks, program, topic, name, roots, log_of(file))
