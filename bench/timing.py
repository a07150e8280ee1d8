"""Times the built program beside the reference program, in turn, best of five, and prints the ratios and
the most memory that each held.

The program is the one that `rt ci` or ./turbosmarts left. The images and the reference program's sources
are those beside the repository; where they are missing there is nothing to compare.
"""
import contextlib
import os
import shutil
import subprocess
import tempfile
import time

TOP = os.path.dirname(os.path.dirname(os.path.abspath(__file__)))
PROGRAM = os.path.join(TOP, "crates", "turbosmarts", "out", "turbosmarts")
SHARED = os.path.join(os.path.dirname(TOP), "shared")
IMAGES = os.path.join(SHARED, "images")
TURNS = 5

# image, instructions
WORK = [("sort-m-os.elf", 3003406), ("mix-m-cl.elf", 2207626)]


def seconds(command, image):
    """The seconds that a command takes on an image, and the most memory that it holds, in MiB: at least the 14
    or so of this interpreter, which its process begins as."""
    with open(image, "rb") as source:
        begin = time.perf_counter()
        child = subprocess.Popen(command, stdin=source, stdout=subprocess.DEVNULL, stderr=subprocess.DEVNULL)
        _, status, usage = os.wait4(child.pid, 0)
        taken = time.perf_counter() - begin
    child.returncode = os.waitstatus_to_exitcode(status)
    if child.returncode != 0:
        raise SystemExit("%s ended with status %d" % (command, child.returncode))
    return taken, usage.ru_maxrss / 1024


@contextlib.contextmanager
def reference(program=PROGRAM):
    """The reference program as a command, made anew, or None where there is nothing to compare with."""
    if not os.path.isdir(IMAGES) or not shutil.which("g++") or not os.path.exists(program):
        print("nothing to compare: the images, g++ or the built program are missing")
        yield None
        return
    with tempfile.TemporaryDirectory() as folder:
        sources = os.path.join(folder, "reference")
        shutil.copytree(os.path.join(SHARED, "oracle"), sources)
        subprocess.run(["chmod", "-R", "u+w", sources], check=True)
        subprocess.run(["make", "-s", "-C", sources], check=True, stdout=subprocess.DEVNULL)
        yield [os.path.join(sources, "oracle"), "--format", "1"]


def best(commands, image):
    """The least seconds that each command takes on an image, run in turn, and the most memory that it holds."""
    turns = [[seconds(command, image) for command in commands] for _ in range(TURNS)]
    return [(min(taken for taken, _ in runs), max(held for _, held in runs)) for runs in zip(*turns)]


def compare(words, work=WORK):
    """Times both programs with these words on each image."""
    with reference() as theirs:
        for name, count in work if theirs else []:
            image = os.path.join(IMAGES, name) if name else os.devnull
            (mine, held), (other, other_held) = best([[PROGRAM] + words, theirs + words], image)
            print("%-40s %-14s %6.1f M instructions/s, reference %6.1f, ratio %.2f; %5.1f MiB, reference %5.1f"
                  % (" ".join(words), name, count / mine / 1e6, count / other / 1e6, other / mine, held, other_held))


def compare_timing(words, unit, warm, often, seldom):
    """What the timing of an instruction takes in both programs: a run whose windows are timed often beside one
    in which they are timed seldom. All else is the same, since each marks the run once."""
    words = ["sample", "unit=%d" % unit, "warm=%d" % warm, "min=65536"] + words
    with reference() as theirs:
        for name, count in WORK if theirs else []:
            commands = [program + words + ["every=%d" % every]
                        for program in ([PROGRAM], theirs[:1] + ["--marked"] + theirs[1:]) for every in (often, seldom)]
            more, less, other_more, other_less = (taken for taken, _ in best(commands, os.path.join(IMAGES, name)))
            units = count // unit
            timed = (len(range(0, units, often)) - len(range(0, units, seldom))) * (unit + warm)
            print("%-40s %-14s %6.1f ns to time an instruction, reference %6.1f"
                  % (" ".join(words), name, (more - less) / timed * 1e9, (other_more - other_less) / timed * 1e9))
