"""Builds a small program over crates of this or another checkout, for the checks that measure a crate alone."""
import os
import shutil
import subprocess
import sys
import tempfile

sys.dont_write_bytecode = True
ROOT = os.path.dirname(os.path.dirname(os.path.realpath(__file__)))


def uses(checkout):
    """Which libraries each crate of a checkout names."""
    found = {}
    with open(os.path.join(checkout, "crates.txt"), encoding="utf-8") as file:
        for line in file:
            crate, colon, libraries = line.partition("#")[0].partition(":")
            if colon:
                found[crate.split()[0]] = libraries.split()
    return found


def below(crates, libraries):
    """The crates that these stand on, themselves among them, lowest first."""
    found = []
    for it in libraries:
        found += [low for low in [*below(crates, crates.get(it, [])), it] if low in crates and low not in found]
    return found


def prepare(name, libraries, program, checkout=ROOT):
    """Copies the crates that a program of one file over libraries of a checkout needs, below memfix-build of this one, and
    answers the program's folder. What earlier builds left there is kept."""
    top, crates = os.path.join(ROOT, "memfix-build", name), uses(checkout)
    needed = below(crates, libraries)
    for crate in needed:
        for part in ("src", "specs", "proofs"):
            source, copy = os.path.join(checkout, "crates", crate, part), os.path.join(top, "crates", crate, part)
            shutil.rmtree(copy, ignore_errors=True)
            if os.path.isdir(source):
                shutil.copytree(source, copy)
    lines = [f"{crate}: {' '.join(crates[crate])}\n" for crate in needed] + [f"{name}: {' '.join(libraries)}\n"]
    folder = os.path.join(top, "crates", name)
    os.makedirs(os.path.join(folder, "src"), exist_ok=True)
    for path, text in ((os.path.join(folder, "src", "main.rt"), program), (os.path.join(top, "crates.txt"), "".join(lines))):
        with open(path, "w", encoding="utf-8") as file:
            file.write(text)
    return folder


def build(name, libraries, program, checkout=ROOT):
    """Proves and builds the program, and answers its path."""
    folder = prepare(name, libraries, program, checkout)
    done = subprocess.run(["rt", "run", "--jobs", "1"], cwd=folder, input=b"int", capture_output=True)
    if done.returncode != 0:
        sys.exit(done.stdout.decode() + done.stderr.decode())
    return os.path.join(folder, "out", name)


def tried(name, libraries, program, text):
    """What the program writes for a text, run without a proof."""
    done = subprocess.run(["rt", "try"], cwd=prepare(name, libraries, program), input=text, capture_output=True)
    if done.returncode != 0:
        sys.exit(done.stdout.decode() + done.stderr.decode())
    return done.stdout.decode()


def run(program, text, words=()):
    """What a run on a text took."""
    process = subprocess.Popen([program, *words], stdin=subprocess.PIPE)
    process.stdin.write(text)
    process.stdin.close()
    _, status, usage = os.wait4(process.pid, 0)
    if os.waitstatus_to_exitcode(status) != 0:
        sys.exit(f"status {os.waitstatus_to_exitcode(status)}")
    return usage


def answered(program, text):
    """What a run on a text took, and what it wrote."""
    with tempfile.TemporaryFile() as file:
        process = subprocess.Popen([program], stdin=subprocess.PIPE, stdout=file)
        process.stdin.write(text)
        process.stdin.close()
        _, status, usage = os.wait4(process.pid, 0)
        if os.waitstatus_to_exitcode(status) != 0:
            sys.exit(f"status {os.waitstatus_to_exitcode(status)}")
        file.seek(0)
        return usage, file.read().decode()


def seconds(usage):
    return usage.ru_utime + usage.ru_stime
