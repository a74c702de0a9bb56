"""The programs that the hunt runs: rt, make and the compiler, which prove and build, and what they build: dealer, joiner and player. Each is
started in a process group of its own, so that a hunt that is broken off leaves nothing behind. Assumes a POSIX system."""
import os
import re
import shlex
import shutil
import signal
import subprocess
import sys
import time

import match
import proving

ROOT = os.path.dirname(os.path.dirname(os.path.realpath(__file__)))
FOLDER = os.path.join(ROOT, "target", "hunt")
PLAYER = os.path.join(FOLDER, "player")
ARCHIVE = os.path.join(ROOT, "target", "staticlib", "libnosingginger_c.a")
INCLUDE = os.path.join(ROOT, "include")
PROGRAMS = ("dealer", "joiner")
ROOM = 9                    # joiner's refusal of a table above 65,536 bytes
MOST_KEY_BYTES = 263176     # of any board: one byte more, and no key is so long
SIGNALS = [signal.SIGINT, signal.SIGTERM, signal.SIGHUP]
PATIENCE = 2                # seconds that a child has to end by itself

FIRST_TIME = """\
What the hunt needs is proved and built first. From nothing this takes some minutes (%s on a machine with two processors).
Nothing needs to be done meanwhile; what is proved is kept, and the next hunt starts at once.
"""


class Refused(Exception):
    """A proved program or call refused, with this number."""

    def __init__(self, who, number):
        Exception.__init__(self, "%s refused %d" % (who, number))
        self.who, self.number = who, number


def fail(words):
    """Ends the hunt: its words are not understood, or what it needs is not there."""
    if sys.stdout:
        sys.stdout.flush()
    if sys.stderr:
        sys.stderr.write("hunt: %s\n" % words)
    sys.exit(2)


def reason(error):
    """An error of the system in its own words, without the number and the name."""
    return error.strerror or str(error)


# ---- children ----

CHILDREN = []


def start(command, **how):
    """Starts a child in a process group of its own. A signal that comes meanwhile waits until the child is known, so that it is ended
    too."""
    before = signal.pthread_sigmask(signal.SIG_BLOCK, SIGNALS)
    try:
        child = subprocess.Popen(command, start_new_session=True, stdout=subprocess.PIPE,
                                 preexec_fn=lambda: signal.pthread_sigmask(signal.SIG_SETMASK, before), **how)
        CHILDREN.append(child)
    except OSError as error:
        fail("%s cannot be run: %s" % (command[0], reason(error)))
    finally:
        signal.pthread_sigmask(signal.SIG_SETMASK, before)
    return child


def group_lives(group):
    try:
        os.killpg(group, 0)
    except OSError:
        return False
    return True


def end_children():
    """Ends every child that still runs, with all that it started."""
    for child in CHILDREN:
        for number in (signal.SIGTERM, signal.SIGKILL):
            try:
                os.killpg(child.pid, number)
            except OSError:
                break
            until = time.monotonic() + PATIENCE
            while child.poll() is None or group_lives(child.pid):
                if time.monotonic() > until:
                    break
                time.sleep(0.02)
    del CHILDREN[:]


def ended(child):
    """Waits for a child that has closed its output; answers its status."""
    status = child.wait()
    CHILDREN.remove(child)
    return status


# ---- building ----

class Counter:
    """Tells on stderr how far the proving is: in one line that is written over on a terminal, elsewhere in a line every ten crates."""

    def __init__(self):
        with open(os.path.join(ROOT, "crates.txt"), encoding="utf-8") as listed:
            self.progress = proving.Progress(proving.crates_needed(listed.read()))
        self.began, self.shown, self.words = time.monotonic(), 0, None
        self.terminal = sys.stderr is not None and sys.stderr.isatty()

    def say(self):
        done, left = self.progress.done, self.progress.left
        if sys.stderr is None or not left or not (self.terminal or len(done) % 10 == 0):
            return
        words = proving.progress_words(done, left, time.monotonic() - self.began)
        if self.terminal and words == self.words:     # rt writes many lines for a crate
            return
        self.words = words
        sys.stderr.write("\r%s" % words.ljust(self.shown) if self.terminal else words + "\n")
        sys.stderr.flush()
        self.shown = len(words) if self.terminal else 0

    def read(self, line):
        """Takes a line of rt's. Where nothing was shown yet and nothing is proved anew, nothing is."""
        if self.progress.read(line) or self.shown:
            self.say()

    def close(self):
        """Leaves the line that was written over empty."""
        if self.shown:
            sys.stderr.write("\r%s\r" % (" " * self.shown))
            sys.stderr.flush()
        self.shown = 0


def built(command, what, counter=None, folder=ROOT):
    """Runs a building command, counting the crates that it proves; where it fails, shows the end of what it wrote."""
    written = []
    work = start(command, cwd=folder, stdin=subprocess.DEVNULL, stderr=subprocess.STDOUT)
    for line in work.stdout:
        written.append(line.decode("utf-8", "replace"))
        if counter:
            counter.read(written[-1])
    if ended(work) != 0:
        if counter:
            counter.close()
        sys.stderr.write("".join(written[-30:]))
        fail("%s failed: the end of what it wrote stands above" % what)


def compiler():
    """The C compiler's words: what CC says, or cc."""
    try:
        return shlex.split(os.environ.get("CC", "")) or ["cc"]
    except ValueError:
        fail("CC is no command: %s" % os.environ["CC"])


def player_is_old():
    sources = [os.path.join(ROOT, "demo", "player.c"), os.path.join(INCLUDE, "nosingginger.h"), ARCHIVE]
    return not all(map(os.path.exists, sources + [PLAYER])) or any(os.path.getmtime(PLAYER) <= os.path.getmtime(file) for file in sources)


def built_program(name):
    """Where rt leaves a program."""
    return os.path.join(ROOT, "crates", name, "out", name)


def program_is_old(name):
    """Whether a program is absent, or older than a file that it is proved and built from. rt itself takes some seconds to say so."""
    if not os.path.exists(built_program(name)):
        return True
    made, listed = os.path.getmtime(built_program(name)), os.path.join(ROOT, "crates.txt")
    with open(listed, encoding="utf-8") as text:
        crates = proving.crates_needed(text.read(), (name,))
    files = [listed] + [os.path.join(folder, file) for crate in crates for part in ("src", "specs", "proofs")
                        for folder, _, some in os.walk(os.path.join(ROOT, "crates", crate, part)) for file in some]
    return any(made <= os.path.getmtime(file) for file in files)


def require_tools():
    """What is needed for proving and building is there. Asked first: it would be a pity to learn it after minutes."""
    needed = [("rt", "the Rattle kit"), ("make", "make")] + ([(compiler()[0], "a C compiler, or what CC names")] if player_is_old() else [])
    for tool, what in needed:
        if not shutil.which(tool):
            fail("%s is not found: the hunt needs it to prove and build (%s)" % (tool, what))


def build():
    """Proves and builds the two programs and the archive, and compiles the player over the archive."""
    require_tools()
    counter = Counter()
    if not os.path.exists(ARCHIVE) and sys.stderr:
        every = counter.progress.left
        sys.stderr.write(FIRST_TIME % proving.time_words(proving.seconds_left([], every, 0)))
        counter.say()
    for program in filter(program_is_old, PROGRAMS):    # rt also runs what it builds: of an empty input both say a refusal
        built(["rt", "run"], "the proof of dealer and joiner", counter, os.path.join(ROOT, "crates", program))
        os.utime(built_program(program))
    built(["make", "--silent", "all"], "the proof of the C library", counter)
    counter.close()
    try:
        os.makedirs(FOLDER, exist_ok=True)
    except OSError as error:
        fail("%s cannot be made: %s" % (FOLDER, reason(error)))
    if player_is_old():
        source = os.path.join(ROOT, "demo", "player.c")
        built(compiler() + ["-std=c99", "-O2", "-I", INCLUDE, source, ARCHIVE, "-o", PLAYER], "compiling demo/player.c")


# ---- what was built ----

def run(who, program, words, given):
    """What a program of standard input and output writes; raises Refused where that is `refused n`."""
    child = start([program] + words, stdin=subprocess.PIPE)
    written, _ = child.communicate(given)
    status = ended(child)
    if status != 0:
        fail("%s ended with status %d" % (who, status))
    refusal = re.fullmatch(rb"refused (\d+)\n", written)
    if refusal:
        raise Refused(who, int(refusal.group(1)))
    return written


def proved(name, given):
    """What dealer or joiner writes."""
    return run(name, built_program(name), [], given)


def player(words, given=b""):
    """The lines that the player writes."""
    return run("player " + words[0], PLAYER, words, given).decode().split("\n")[:-1]


def page(table, board):
    """The page of a board's table, as text."""
    return run("player page", PLAYER, ["page", str(board.positions), str(board.valueBytes)], table).decode("ascii")


class Library:
    """The calls that match.py asks, each as its answer and None, or None and the refusal's number. Keys are checked by one player that stays,
    as there may be many of them."""

    def __init__(self):
        self.checker = None

    def check(self, key):
        """Check key. Bytes past the longest key there is change no answer."""
        if self.checker is None:
            self.checker = start([PLAYER, "check"], stdin=subprocess.PIPE)
        key = key[:MOST_KEY_BYTES + 1]
        try:
            self.checker.stdin.write(b"%d\n%s" % (len(key), key))
            self.checker.stdin.flush()
            words = self.checker.stdout.readline().split()
        except BrokenPipeError:
            words = []
        if not words:
            fail("player check ended before it answered")
        if len(words) == 2:
            return None, int(words[1])
        return match.Header(*map(int, words)), None

    def key_length(self, board):
        """Key length; None where it is refused."""
        try:
            return int(player(["length", str(board.players), str(board.positions), str(board.width), str(board.valueBytes)])[0])
        except Refused:
            return None

    def join(self, keys):
        """Join keys: by the program joiner, which prints every square; where keys or table are too long for it, by the C call."""
        try:
            try:
                lines = proved("joiner", keys).decode().split("\n")[1:-1]
            except Refused as refused:
                if refused.number not in (match.LENGTH, ROOM):
                    raise
                lines = player(["join"], keys)
        except Refused as refused:
            return None, refused.number
        return bytes.fromhex("".join(line.split()[-1] for line in lines)), None
