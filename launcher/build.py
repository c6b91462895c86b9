"""Proves and builds the program for the launcher ./memfix, which says on standard error how far it is."""
import fcntl
import os
import select
import shutil
import signal
import subprocess
import time

import __main__ as launcher
from __main__ import CRATES, KEPT, LEFT, MAIN, ROOT, needed, say

FOLDER = os.path.dirname(KEPT)
LOG = os.path.join(FOLDER, "build.log")
# As much memory as a crate may take while it is proved, in bytes.
ROOM = 4_500_000_000


class Interrupted(BaseException):
    """A signal that ends the launcher came."""


def interrupt(number, _):
    raise Interrupted(number)


def is_alone(folder, wait):
    """Whether no other launcher builds here; the lock ends with this process. Some file systems have no locks."""
    try:
        fcntl.flock(folder, fcntl.LOCK_EX | (0 if wait else fcntl.LOCK_NB))
    except BlockingIOError:
        return False
    except OSError:
        pass
    return True


def why_not_writable():
    """A folder that the build writes to and can't, and why, or None."""
    for folder in [ROOT, FOLDER, *(os.path.join(CRATES, crate, part) for crate in needed() for part in ("", "out"))]:
        if os.path.isdir(folder) and not os.access(folder, os.W_OK):
            is_mounted_so = os.statvfs(folder).f_flag & os.ST_RDONLY
            return f"{folder} {'is on a read-only file system' if is_mounted_so else 'is read-only'}"
    return None


def at_once():
    """How many crates to prove side by side: as many as RT_JOBS says, or three for two idle processors, as far as memory
    allows. Some of them wait for crates below."""
    said = os.environ.get("RT_JOBS", "")
    if said.isdigit():
        return int(said)
    idle = len(os.sched_getaffinity(0)) - round(os.getloadavg()[0])
    with open("/proc/meminfo", encoding="ascii") as file:
        free = [1024 * int(line.split()[1]) for line in file if line.startswith("MemAvailable:")]
    return max(1, min([idle + idle // 2, *(it // ROOM for it in free)]))


class Progress:
    """The crates that are done, and those that rt is at. It says so whenever that changes and once a minute."""

    def __init__(self, many):
        self.uses, self.many, self.done, self.at = needed(), many, set(), []
        self.begun = self.told = time.monotonic()

    def below(self, crate):
        return {it for lib in self.uses[crate] for it in (lib, *self.below(lib))}

    def left(self):
        """The crates that aren't done, in the order in which rt takes them."""
        return sorted((it for it in self.uses if it not in self.done), key=lambda it: len(self.below(it)))

    def is_chain(self):
        """Whether no two of the crates that are left can be proved side by side."""
        left = self.left()
        return all(low in self.below(high) for low, high in zip(left, left[1:]))

    def tell(self):
        self.told = time.monotonic()
        minutes = int((self.told - self.begun) / 60)
        at = f", at {' and '.join(self.at)}" if self.at else ""
        say(f"{len(self.done)} of {len(self.uses)} crates done after {minutes} min{at}")

    def tell_again(self):
        if time.monotonic() - self.told >= 60:
            self.tell()

    def read(self, line):
        """Takes a line of rt: `== NAME` comes when a crate is done, `rt: chose --jobs N for NAME` when one begins."""
        words = line.split()
        if line.startswith("== ") and words[1] in self.uses:
            self.done.add(words[1])
            self.at = [it for it in self.left()[: self.many] if self.done.issuperset(self.uses[it])]
            self.tell()
        elif line.startswith("rt: chose --jobs ") and words[-1] in self.uses:
            self.done |= self.below(words[-1])
            self.at = [words[-1]]
            self.tell()
        elif line.startswith("rt: waiting for another rt"):
            say("waiting until another run of rt ends")


def pieces_of(stream):
    """What the stream gives, to its end; an empty piece for each second in which it gives nothing."""
    poll = select.poll()
    poll.register(stream, select.POLLIN)
    while True:
        piece = os.read(stream.fileno(), 65536) if poll.poll(1000) else None
        if piece == b"":
            return
        yield piece or b""


def run_rt(words, text, log, progress, is_enough):
    """Runs rt on the program's crate and answers its status; None where it is enough before it ends."""
    streams = {"stdin": subprocess.PIPE, "stdout": subprocess.PIPE, "stderr": subprocess.STDOUT}
    with subprocess.Popen(["rt", *words], cwd=os.path.join(CRATES, MAIN), **streams) as ran:
        try:
            ran.stdin.write(text)
            ran.stdin.close()
            rest = b""
            for piece in pieces_of(ran.stdout):
                log.write(piece)
                log.flush()
                *lines, rest = (rest + piece).split(b"\n")
                for line in lines:
                    progress.read(line.decode(errors="replace"))
                progress.tell_again()
                if is_enough():
                    return None
            return ran.wait()
        finally:
            # rt takes along all that it started.
            ran.terminate()


def prove_and_build(log):
    """Proves crates side by side as long as there are two that can be. `rt run` does the rest, on all processors,
    and runs the program on a text that has nothing to free."""
    progress = Progress(at_once())
    if progress.many > 1 and not progress.is_chain():
        run_rt(["all", "check", "--jobs", str(progress.many)], b"", log, progress, progress.is_chain)
    return run_rt(["run", "--", "repair"], b"int main(void) { return 0; }", log, progress, lambda: False) == 0


def keep(begun):
    """Keeps a copy of the program. Both are as old as the beginning of the build, so that the next run builds what was
    changed meanwhile."""
    new = f"{KEPT}.new"
    try:
        os.utime(LEFT, ns=(begun, begun))
        shutil.copy2(LEFT, new)
        os.replace(new, KEPT)
    except BaseException:
        if os.path.exists(new):
            os.remove(new)
        raise


def build_logged():
    """Builds the program, and answers the status to end with, 0 where it is built."""
    os.makedirs(FOLDER, exist_ok=True)
    with open(LOG, "wb") as log:
        begun = os.fstat(log.fileno()).st_mtime_ns
        is_built = prove_and_build(log)
    if is_built:
        keep(begun)
        return 0
    say(f"the program could not be proved and built (log: {LOG})")
    return 126


def build_here():
    """The same. Where a signal ends it, it leaves nothing but what rt keeps in the crates' folders out/."""
    ending = (signal.SIGINT, signal.SIGTERM, signal.SIGHUP)
    before = [signal.signal(it, interrupt) if signal.getsignal(it) == signal.SIG_DFL else None for it in ending]
    try:
        return build_logged()
    except OSError as error:
        say(f"the program could not be built: {error.filename or LOG}: {error.strerror}")
        return 126
    except Interrupted as caught:
        if os.path.exists(LOG):
            os.remove(LOG)
        if os.path.isdir(FOLDER) and not os.listdir(FOLDER):
            os.rmdir(FOLDER)
        signal.signal(caught.args[0], signal.SIG_DFL)
        os.kill(os.getpid(), caught.args[0])
        return 126
    finally:
        for number, handler in zip(ending, before):
            if handler is not None:
                signal.signal(number, handler)


def build():
    """Builds the program, unless another run does, and answers the status to end with, 0 where it is built."""
    is_there = os.path.exists(KEPT) or os.path.exists(LEFT)
    what = "is older than its sources" if is_there else "is not built"
    if not shutil.which("rt"):
        say(f"the program {what}, and the command rt that proves and builds it is not on PATH")
        return 127
    folder = os.open(ROOT, os.O_RDONLY)
    try:
        return build_alone(folder, what)
    finally:
        os.close(folder)


def build_alone(folder, what):
    if not is_alone(folder, wait=False):
        say("another run proves and builds the program: waiting until it ends")
        is_alone(folder, wait=True)
        if launcher.current_program():
            return 0
    why = why_not_writable()
    if why:
        say(f"the program {what}, and can't be built, since {why}")
        return 126
    say(f"the program {what}: proving and building it, which {launcher.COST} (log: {LOG})")
    return build_here()
