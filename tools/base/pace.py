"""Limits of what commands take: seconds of a processor, as on a reference machine. None goes by the clock.

usage: python3 tools/base/pace.py watch [--with PID] COMMAND ..   runs a command, and ends it where it hangs
       python3 tools/base/pace.py within SECONDS COMMAND ..       runs a command up to three times, and tells its least
                                                                  seconds of a processor where they are more

A limit is multiplied by how many times slower this machine is than the reference. A piece of work tells that, which is
done in the same run, when something reaches its limit: where all is quick, nothing is measured. Other work on the
machine makes a command take longer by the clock, and hardly more seconds of a processor.

What waits for ever takes no processor time. A command *hangs* if neither it nor anything that it began takes any to
speak of for a long while, and none of its threads waits for a processor or a disk.

The status of `watch` is the command's; of a command that was ended it is 1 if it hung, and 75 if it took too much. The
status of `within` is 0 or 75.
"""

import collections
import contextlib
import os
import resource
import signal
import subprocess
import sys
import threading
import time

sys.dont_write_bytecode = True

import outcome  # noqa: E402

# The piece of work: so many additions; and the seconds that they take on the reference, an idle machine on which 20
# million take 0.77.
ADDITIONS, REFERENCE = 1_000_000, 0.0385
# The least of so many tries counts: of the piece, and of what is timed.
PIECES, TRIES = 5, 3
# The seconds between two looks at what runs, and how many looks in a row find it still where it hangs.
LOOK, LOOKS = 5, 12
# What is still may take this share of a processor, as a browser does that shows nothing new.
STILL = 0.02
# So many seconds of the clock the text of a command that was ended is waited for.
GONE = 10
# The seconds of a processor that a command may take where its caller names no other limit.
MOST = 120
TICKS = os.sysconf("SC_CLK_TCK")


class Ended(Exception):
    """Why a command was ended before its time, and what it had printed by then."""

    output = None


class Hung(Ended):
    """Nothing was at work any more."""


class TooSlow(Ended):
    """More seconds of a processor were taken than this machine allows."""


def piece():
    """The seconds of a processor that the piece of work takes now."""
    start, total = time.thread_time(), 0
    for it in range(ADDITIONS):
        total += it
    return time.thread_time() - start


class Machine:
    """This machine: how many times slower it is than the reference, by the most that was measured in this run."""

    def __init__(self):
        self.slowness, self.lock = 1.0, threading.Lock()

    def measure(self):
        """Measures it now. A machine that is faster than the reference counts as the reference."""
        with self.lock:
            self.slowness = max(self.slowness, min(piece() for _ in range(PIECES)) / REFERENCE)

    def allows(self, spent, most):
        """Whether so many seconds of a processor are within a limit. Where they seem not to be, it is measured."""
        if spent > most * self.slowness:
            self.measure()
        return spent <= most * self.slowness

    def told(self, spent, most):
        """What is told of a limit that isn't kept."""
        return f"{spent:.3g} s of a processor, where {most * self.slowness:.3g} are allowed"


MACHINE = Machine()


def held(what, trial, most):
    """The least seconds of a processor that a trial gives, which is made again only where they are too many; raises
    where no try is within the limit."""
    found = [trial()]
    while not MACHINE.allows(min(found), most):
        if len(found) == TRIES:
            raise TooSlow(f"{what}: {MACHINE.told(min(found), most)}")
        found.append(trial())
    return min(found)


Process = collections.namedtuple("Process", "parent session seconds")


def _process(fields):
    """What the fields after the name in a file `stat` say. The seconds include those of children that have ended."""
    return Process(int(fields[1]), int(fields[3]), sum(map(int, fields[11:15])) / TICKS)


def _fields(path):
    """The fields after the name in a file `stat`, the state first; nothing where the process has ended."""
    try:
        with open(path, "rb") as it:
            return it.read().rpartition(b")")[2].split()
    except OSError:
        return []


def family(pid):
    """A process and all that it began and that still runs, each by its number."""
    read = {int(it): _fields(f"/proc/{it}/stat") for it in os.listdir("/proc") if it.isdecimal()}
    every, below = {it: _process(fields) for it, fields in read.items() if fields}, collections.defaultdict(list)
    for number, it in every.items():
        below[it.parent].append(number)
        # One whose parent has ended is known by its session.
        below[it.session].append(number)
    found, left = {}, [pid]
    while left:
        number = left.pop()
        if number in every and number not in found:
            found[number] = every[number]
            left += below[number]
    return found


def _is_at_work(pids):
    """Whether a thread of these processes runs, or waits for a processor or a disk."""
    for pid in pids:
        try:
            threads = os.listdir(f"/proc/{pid}/task")
        except OSError:
            continue
        if any(_fields(f"/proc/{pid}/task/{it}/stat")[:1] in ([b"R"], [b"D"]) for it in threads):
            return True
    return False


def end(pid):
    """Ends a process and all that it began. Each is stopped first, so that none begins another one meanwhile."""
    ended = set()
    while new := family(pid).keys() - ended:
        _signal(new, signal.SIGSTOP)
        ended |= new
    _signal(ended, signal.SIGKILL)


def _signal(pids, number):
    for it in pids:
        try:
            os.kill(it, number)
        except OSError:
            pass


class Watch:
    """Looks at processes and all that they began, once in so many seconds, and raises where they hang or take too much.

    With `is_new` they have just begun. Otherwise only what they take after the first look counts. Of the process that
    looks only what it began counts.
    """

    def __init__(self, most, *pids, is_new=True, every=None):
        self.most, self.pids, self.every = most, pids, every or LOOK
        self.before, self.spent, self.still = 0.0 if is_new else None, 0.0, 0
        self.seen = time.monotonic()

    def left(self):
        """The seconds of the clock until the next look."""
        return max(0.0, self.seen + self.every - time.monotonic())

    def look(self):
        """Looks, where it is time to."""
        if self.left():
            return
        members = self._members()
        taken, self.spent = _seconds(members) - self.spent, _seconds(members)
        elapsed, self.seen = time.monotonic() - self.seen, time.monotonic()
        if self.before is None:
            self.before = self.spent
        is_still = 0 <= taken < STILL * elapsed and not _is_at_work(members)
        self.still = self.still + 1 if is_still else 0
        if self.still >= LOOKS:
            raise Hung(f"hung: no processor time to speak of for {LOOKS * self.every:g} s")
        # A process that ends while all are read may be counted twice: the lower of two readings counts.
        if not self._is_allowed(self.spent) and not self._is_allowed(min(self.spent, _seconds(self._members()))):
            raise TooSlow(f"ended after {MACHINE.told(self.spent - self.before, self.most)}")

    def _members(self):
        return {number: it for pid in self.pids for number, it in family(pid).items() if number != os.getpid()}

    def _is_allowed(self, spent):
        return MACHINE.allows(spent - self.before, self.most)


def _seconds(members):
    return sum(it.seconds for it in members.values())


def run(words, most=None, every=None, **how):
    """Runs a command as subprocess.run does; one that hangs or takes too much is ended with all that it began.

    It hangs only where the processes `beside` it do nothing either.
    """
    given, others = how.pop("input", None), how.pop("beside", ())
    if given is not None:
        how["stdin"] = subprocess.PIPE
    if how.pop("capture_output", False):
        how["stdout"] = how["stderr"] = subprocess.PIPE
    with subprocess.Popen(words, **how) as running:
        try:
            if given is not None:
                _feed(running, given)
            output = _communicated(running, Watch(most or MOST, running.pid, *others, every=every))
        except BaseException as why:
            end(running.pid)
            if isinstance(why, Ended):
                why.output = _left(running)
            raise
    return subprocess.CompletedProcess(words, running.returncode, *output)


def _feed(running, given):
    """Writes what a command reads, as it reads it. A call of `communicate` goes on with no input that another began."""
    stdin, running.stdin = running.stdin, None

    def write():
        with contextlib.suppress(BrokenPipeError), stdin:
            stdin.write(given)

    threading.Thread(target=write, daemon=True).start()


def _communicated(running, watch):
    """What a command prints until it ends."""
    while True:
        try:
            return running.communicate(timeout=watch.left())
        except subprocess.TimeoutExpired:
            watch.look()


def _left(running):
    """What a command that was ended had printed, as far as that is known: something that it began may hold a pipe."""
    try:
        return running.communicate(timeout=GONE)[0]
    except subprocess.TimeoutExpired as why:
        return why.output


def wait(running, most=None):
    """Waits for a process of ours to end. Where it hangs or takes too much, it is ended with all that it began."""
    watch = Watch(most or MOST, running.pid, is_new=False)
    while True:
        try:
            return running.wait(watch.left())
        except subprocess.TimeoutExpired:
            try:
                watch.look()
            except Ended:
                end(running.pid)
                raise


def children_seconds():
    """The seconds of a processor that all children took that have ended, with all that they began."""
    used = resource.getrusage(resource.RUSAGE_CHILDREN)
    return used.ru_utime + used.ru_stime


def seconds_of(words):
    """The seconds of a processor that a command takes."""
    before = children_seconds()
    run(words, stdin=subprocess.DEVNULL, stdout=subprocess.DEVNULL, stderr=subprocess.DEVNULL)
    return children_seconds() - before


def watched(words):
    """Runs a command under a watch, and gives the exit status."""
    beside = [int(words[1])] if words[0] == "--with" else []
    words = words[2:] if beside else words
    try:
        return run(words, beside=beside).returncode
    except Ended as why:
        print(f"{words[0]}: {why}", file=sys.stderr)
        return outcome.SLOW if isinstance(why, TooSlow) else 1


def main(words):
    """Does what the words say, and gives the exit status."""
    if words[:1] == ["watch"] and len(words) > 1:
        return watched(words[1:])
    if words[:1] != ["within"] or len(words) < 3:
        sys.exit(__doc__)
    try:
        held(os.path.basename(words[2]), lambda: seconds_of(words[2:]), float(words[1]))
    except TooSlow as why:
        print(f"{why}: {outcome.TOO_SLOW}")
        return outcome.SLOW
    return 0


if __name__ == "__main__":
    sys.exit(main(sys.argv[1:]))
