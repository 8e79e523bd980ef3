"""Runs the built programs on files, each with a limit of time, and judges how they end.

Every process that a check starts by this module is ended where it takes longer than it may, so that no program makes a check hang: not one
that waits for a pipe which it took for an image, and not one that goes round in circles."""

import collections
import contextlib
import dataclasses
import fcntl
import os
import select
import shutil
import signal
import subprocess
import sys
import time

ROOT = os.path.dirname(os.path.dirname(os.path.dirname(os.path.abspath(__file__))))
# The most seconds that a program may take, and one that has to answer at once.
LIMIT, AT_ONCE = 120, 10
# Builds a library that is loaded before a program, from its source, by the toolchain's own compiler.
LIBRARY = '. "$1/checks/common"; build_library "$2" "$1/checks/$3"'

# The word by which a check tries what was built without a proof, and what it says first then.
UNPROVED = "--unproved"
NOTHING_PROVED = "*** NOTHING IS PROVED: what is tried here was built WITHOUT A PROOF. ***"

# How a program ended: its exit status, and what it wrote to its two streams.
Ran = collections.namedtuple("Ran", "status out err")
# The same, and the bytes of the image file behind it.
Ended = collections.namedtuple("Ended", "status written told image")


@dataclasses.dataclass(frozen=True)
class How:
    """How a program is run: the file that it reads, the file that gets its output, the streams that are closed, the most seconds, the most KiB of
    address space, the most blocks of 512 bytes in a file, what it finds in its environment, and the file that gets what it writes to descriptor 9."""

    given: str = "/dev/null"
    out: str = "out"
    closed: tuple = ()
    seconds: int = LIMIT
    kib: object = None
    blocks: object = None
    more: tuple = ()
    ninth: object = None

    def words(self, words):
        """The words that set the limits first."""
        limits = f"ulimit -v {self.kib}; " * bool(self.kib) + f"trap '' XFSZ; ulimit -f {self.blocks}; " * bool(self.blocks)
        return ["sh", "-c", limits + 'exec "$@"', "sh", *words] if limits else words

    def streams(self):
        """Opens the streams, but for those that are closed."""
        to = os.O_WRONLY | os.O_CREAT | os.O_TRUNC
        places = {0: (self.given, os.O_RDONLY), 1: (self.out, to), 2: ("err", to)}
        places.update({9: (self.ninth, to)} if self.ninth else {})
        for number, (path, flags) in places.items():
            if number in self.closed:
                yield os.POSIX_SPAWN_CLOSE, number
            else:
                yield os.POSIX_SPAWN_OPEN, number, path, flags, 0o600


def contents(path):
    with open(path, "rb") as file:
        return file.read()


def write_file(path, text):
    with open(path, "wb") as file:
        file.write(text)


def overwrite(path, place, text):
    """Other bytes from this place of a file on."""
    with open(path, "r+b") as file:
        file.seek(place)
        file.write(text)


def part_of(path, place, length=None):
    """Some bytes of a file, or all from this place on."""
    with open(path, "rb") as file:
        file.seek(place)
        return file.read(-1 if length is None else length)


def copy(path, other):
    """A copy of a file in place of another, byte by byte: a program may have either open."""
    write_file(other, contents(path))


def difference(found, wanted):
    """How a message tells two values apart: texts by the bytes from the first one on that is another."""
    if isinstance(found, int) or isinstance(wanted, int):
        return f"is {found if isinstance(found, int) else found[:60]}, not {wanted}"
    place = len(os.path.commonprefix([found, wanted]))
    return f"has {found[place : place + 40]} at byte {place}, not {wanted[place : place + 40]}"


def remove(*paths):
    for path in paths:
        with contextlib.suppress(FileNotFoundError):
            os.remove(path)


def ended(child, words, seconds):
    """Waits for a program, and gives its status. One that takes longer is ended, and so is the check."""

    def give_up(*_):
        os.kill(child, signal.SIGKILL)
        sys.exit(f"{os.path.basename(sys.argv[0])}: {' '.join(words)[:200]}: no end within {seconds} seconds")

    signal.signal(signal.SIGALRM, give_up)
    signal.alarm(seconds)
    _, status = os.waitpid(child, 0)
    signal.alarm(0)
    return os.waitstatus_to_exitcode(status)


def run(words, **how):
    """Runs a program on files, so that neither waits for the other, and gives its status and what it wrote to its two streams."""
    asked = How(**how)
    for number in {1, 2}.intersection(asked.closed):
        write_file(("out", "err")[number - 1], b"")
    child = os.posix_spawnp(
        asked.words(words)[0],
        asked.words(words),
        {**os.environ, **dict(asked.more)},
        file_actions=list(asked.streams()),
        setsigdef=[signal.SIGPIPE, signal.SIGXFSZ],
    )
    status = ended(child, words, asked.seconds)
    return Ran(status, contents("out") if asked.out == "out" else b"", contents("err"))


def is_unproved():
    return UNPROVED in sys.argv[1:]


def words_given():
    """The words of the check, but for the one by which it tries what has no proof."""
    return [it for it in sys.argv[1:] if it != UNPROVED]


def built(name):
    """A program, which is proved and built where it is not there or not of this text; or one that is built without a proof, and is told to be. A proof
    takes as long as it takes: this alone has no limit."""
    if is_unproved():
        print(NOTHING_PROVED, flush=True)
        words = [f"{ROOT}/scripts/unproved_program", "--only-build", name]
        return subprocess.run(words, check=True, stdout=subprocess.PIPE, text=True).stdout.strip()
    subprocess.run([f"{ROOT}/scripts/proved_program", "--only-build", name], check=True, stdout=sys.stderr)
    return f"{ROOT}/crates/{name}/out/{name}"


def builds(name):
    """A program as each compiler builds it, with how that is called. Without a proof LLVM alone does, and Rattle's own where the gate left that."""
    program = built(name)
    yield program, "LLVM builds it"
    if is_unproved():
        return
    if os.path.isfile(f"{program}.by-rattle"):
        yield f"{program}.by-rattle", "Rattle builds it"
    else:
        print("what Rattle's own compiler builds is not here: the gate leaves it")


def library(path, source):
    """A library that is loaded before a program, of a source of checks/."""
    subprocess.run(["sh", "-euc", LIBRARY, "sh", ROOT, path, source], check=True, timeout=LIMIT)
    return path


@contextlib.contextmanager
def locked(path):
    """A file that another program has locked."""
    with open(path, "rb") as file:
        fcntl.flock(file, fcntl.LOCK_EX)
        yield


def has_nobody():
    """Whether a program can be run as a user who owns nothing."""
    return os.getuid() == 0 and shutil.which("setpriv")


def as_nobody(words):
    return ["setpriv", "--reuid=65534", "--regid=65534", "--clear-groups", *words]


def told_at_terminal(words):
    """The status of a program, and what it writes to a terminal that is its standard error."""
    ours, theirs = os.openpty()
    until = time.monotonic() + LIMIT
    with subprocess.Popen(words, stdin=subprocess.DEVNULL, stdout=subprocess.DEVNULL, stderr=theirs) as program:
        os.close(theirs)
        told = b""
        while select.select([ours], [], [], max(until - time.monotonic(), 0))[0]:
            try:
                told += os.read(ours, 4096)
            except OSError:
                break
        status = waited(program, words, max(until - time.monotonic(), 1))
    os.close(ours)
    return status, told


def waited(program, words, seconds=LIMIT):
    """The status of a program that was begun. One that takes longer is ended, and so is the check."""
    try:
        return program.wait(seconds)
    except subprocess.TimeoutExpired:
        program.kill()
        sys.exit(f"{os.path.basename(sys.argv[0])}: {' '.join(words)[:200]}: no end within {seconds:.0f} seconds")


class Open:
    """A program whose input stays open: it is sent lines, and its answers go to the file `answers`."""

    def __init__(self, words, **how):
        self.words = words
        with open("answers", "wb") as out, open("answers.err", "wb") as err:
            self.program = subprocess.Popen(How(**how).words(words), stdin=subprocess.PIPE, stdout=out, stderr=err)

    def send(self, lines, answers, seconds):
        """Sends lines, and waits for so many answers, not longer than so many seconds."""
        until = time.monotonic() + seconds
        with contextlib.suppress(BrokenPipeError):
            self.program.stdin.write(lines)
            self.program.stdin.flush()
        while contents("answers").count(b"\n") < answers and self.program.poll() is None and time.monotonic() < until:
            time.sleep(0.01)
        return contents("answers").count(b"\n") >= answers

    def memory(self):
        """The most memory that it took, in KiB, as the system tells it. 0 where it is gone."""
        try:
            rows = dict(it.split(b":", 1) for it in contents(f"/proc/{self.program.pid}/status").splitlines())
        except OSError:
            return 0
        return int(rows.get(b"VmPeak", b"0 kB").split()[0])

    def close(self):
        """Ends its input, and gives how it ended."""
        with contextlib.suppress(BrokenPipeError):
            self.program.stdin.close()
        status = waited(self.program, self.words)
        return Ran(status, contents("answers"), contents("answers.err"))


class Trial:
    """The runs of a check. Each is judged and counted; the first that goes otherwise ends the check, with a line that tells it."""

    def __init__(self, name):
        self.name, self.cases, self.ran = name, 0, None

    def fail(self, what):
        found = self.ran or Ran("none", b"", b"")
        sys.exit(f"checks/{self.name}: {what}: status {found.status}, {found.err[:200].decode(errors='replace').rstrip()}")

    def expect(self, is_so, what):
        """Counts what is judged, and fails where it is not so."""
        self.cases += 1
        if not is_so:
            self.fail(what)

    def run(self, words, **how):
        self.ran = run(words, **how)
        return self.ran

    def ends(self, words, wanted, what=None, **how):
        """The program ends with this status, and with these texts on its two streams."""
        self.expect(self.run(words, **how) == wanted, what or " ".join(words[1:])[:200])

    def same(self, path, other, what):
        """Two files have the same bytes."""
        found, wanted = contents(path), contents(other)
        self.cases += 1
        if found != wanted:
            self.fail(f"{what}: {path} {difference(found, wanted)}")

    def done(self, words, text):
        """A step without which nothing can be tried: the program ends well, and writes this."""
        if self.run(words) != Ran(0, text, b""):
            self.fail(" ".join(words))


def judge_parts(trial, parts):
    """Tries the parts of a check in turn: for each its name, what tries it, and how many cases it has to judge. One that cannot be tried here tells
    why."""
    for name, part, wanted in parts:
        before = trial.cases
        left_out = part(trial)
        found = trial.cases - before
        if not left_out and found != wanted:
            sys.exit(f"checks/{trial.name}: {name}: {found} cases were judged, and there are {wanted}")
        print(left_out or f"{name}: {found} cases", flush=True)
    print(f"checks/{trial.name}: passed, {trial.cases} cases")
