"""What the benchmark runs: how each tool is built or found, timed and counted. A tool that is not there has a reason instead of a command."""

import os
import re
import shutil
import statistics
import subprocess
import sys
import tempfile
import time
from pathlib import Path

ROOT = Path(__file__).resolve().parent.parent
BUILT = ROOT / "target" / "bench"
PROGRAM = ROOT / "crates" / "toppaths" / "out" / "toppaths"
ARCHIVE = ROOT / "crates" / "chthonyra" / "out" / "libchthonyra.a"
HEADER = ROOT / "include" / "chthonyra.h"

# AVX2, but no AVX-512: valgrind does not know that.
RUST_FLAGS = ["--edition", "2024", "--crate-name", "fast", "-C", "opt-level=3", "-C", "target-cpu=x86-64-v3", "-C", "lto=fat", "-C", "codegen-units=1",
              "-C", "panic=abort"]
# What is linked is bound before the program starts, so that no call that is counted has to find another.
C_FLAGS = ["-O2", "-Wall", "-Wextra", "-Wl,-z,now"]

# The functions that are counted alone.
FAST_ASKING = "fast::ask::ask"
ASKING = "chthonyra_ask"
READING = "chthonyra_read"

SECONDS = 20  # that an answer may take


class Absent(Exception):
    """A tool that is not there, and why."""


def built(command, target):
    """Build a program; gives its path."""
    BUILT.mkdir(parents=True, exist_ok=True)
    if shutil.which(command[0]) is None:
        raise Absent(f"{command[0]} is not installed")
    run = subprocess.run([*map(str, command), "-o", str(target)], capture_output=True, text=True, check=False)
    if run.returncode:
        raise Absent(f"{command[0]} failed: {run.stderr[:400]}")
    return target


def program():
    """The proved program."""
    if not PROGRAM.exists():
        raise Absent("crates/toppaths/out/toppaths is not built: rt run in crates/toppaths")
    return PROGRAM


def fast():
    """The benchmark's own program without proof."""
    return built(["rustc", *RUST_FLAGS, ROOT / "bench" / "fast" / "main.rs"], BUILT / "fast")


def call(archive=ARCHIVE, name="call"):
    """A C program that calls the proved library."""
    if not (archive.exists() and HEADER.exists()):
        raise Absent("the library for C is not built: rt lib in crates/chthonyra")
    return built(["gcc", *C_FLAGS, f"-I{HEADER.parent}", ROOT / "bench" / "call.c", archive], BUILT / name)


def clear():
    """A C program that clears memory in several ways."""
    return built(["gcc", *C_FLAGS, f"-I{HEADER.parent}", ROOT / "bench" / "clear.c"], BUILT / "clear")


def networkx():
    """networkx, in a Python process of its own."""
    if subprocess.run([sys.executable, "-c", "import networkx"], capture_output=True, check=False).returncode:
        raise Absent("networkx is not installed")
    return [sys.executable, "-B", str(ROOT / "bench" / "networks.py")]


def callgrind():
    """The counter of instructions."""
    if shutil.which("valgrind") is None:
        raise Absent("valgrind is not installed")
    return ["valgrind", "--tool=callgrind"]


def found(make):
    """The command of a tool, or the reason why there is none."""
    try:
        return make(), None
    except Absent as absent:
        return None, str(absent)


# ------------------------------------------------------------- running

class Slow(Exception):
    """A program that took longer than an answer may."""


def printed(command, text):
    """What a program prints of a text."""
    try:
        return subprocess.run([str(command)], input=text, capture_output=True, check=True, timeout=SECONDS).stdout
    except subprocess.TimeoutExpired as slow:
        raise Slow(f"no answer within {SECONDS} s") from slow


def once(command, source):
    """The time of one whole process, from its start to its end, in milliseconds."""
    quiet = os.open(os.devnull, os.O_WRONLY)
    given = os.open(source, os.O_RDONLY)
    actions = [(os.POSIX_SPAWN_DUP2, given, 0), (os.POSIX_SPAWN_DUP2, quiet, 1), (os.POSIX_SPAWN_DUP2, quiet, 2)]
    began = time.perf_counter_ns()
    child = os.posix_spawn(command[0], command, os.environ, file_actions=actions)
    os.waitpid(child, 0)
    ended = time.perf_counter_ns()
    os.close(given)
    os.close(quiet)
    return (ended - began) / 1e6


def times(commands, source, runs):
    """The median time of each command over so many runs, the commands taking turns."""
    taken = [[once([str(word) for word in command], source) for command in commands] for _ in range(runs)]
    return [statistics.median(column) for column in zip(*taken)]


def instructions(command, text, wanted):
    """The instructions of a whole process. What it prints meanwhile must be what is wanted."""
    run = subprocess.run(callgrind() + ["--callgrind-out-file=/dev/null", str(command)], input=text, capture_output=True, check=False)
    if run.returncode or run.stdout != wanted:
        raise RuntimeError(f"{command} under callgrind: {run.stderr.decode()[-2000:]}")
    return int(re.search(rb"Collected : (\d+)", run.stderr).group(1))


def calls(command, texts, function, wanted=None):
    """The instructions of the call of a function for each of the texts, in one process: nothing else is counted, and the count is written down after each call.
    What the process prints meanwhile must be what is wanted, if that is said. A text that does not come to the call spoils the order, and is an error."""
    given = b"".join(b"%d\n%s" % (len(text), text) for text in texts)
    with tempfile.TemporaryDirectory() as folder:
        out = Path(folder) / "out"
        counter = callgrind() + [f"--callgrind-out-file={out}", f"--toggle-collect={function}", f"--dump-after={function}"]
        run = subprocess.run(counter + [str(command), "--many"], input=given, capture_output=True, check=False)
        counts = [int(re.search(r"^totals: (\d+)", part.read_text(encoding="ascii"), re.M).group(1)) for part in map(Path, numbered(out))]
    if run.returncode or len(counts) != len(texts) or 0 in counts or (wanted is not None and run.stdout != b"".join(wanted)):
        raise RuntimeError(f"{command} under callgrind, {len(counts)} counts of {function} for {len(texts)} texts: {run.stderr.decode()[-2000:]}")
    return counts


def numbered(out):
    """The files that callgrind has written beside the last one, in order."""
    return sorted(out.parent.glob(f"{out.name}.*"), key=lambda part: int(part.suffix[1:]))


# ------------------------------------------------------------- the machine

def first_line(command):
    """The first line that a command prints, or that it is absent."""
    if shutil.which(command[0]) is None:
        return f"{command[0]} absent"
    run = subprocess.run(command, capture_output=True, text=True, check=False)
    return (run.stdout + run.stderr).splitlines()[0]


def machine():
    """What the figures were taken on."""
    cpu = Path("/proc/cpuinfo").read_text(encoding="utf-8")
    model = re.search(r"model name\s*: (.*)", cpu)
    memory = re.search(r"MemTotal:\s*(\d+)", Path("/proc/meminfo").read_text(encoding="utf-8"))
    system = re.search(r'PRETTY_NAME="(.*)"', Path("/etc/os-release").read_text(encoding="utf-8"))
    return [f"{model.group(1) if model else 'unknown processor'}, {os.cpu_count()} processors, {int(memory.group(1)) // 1_048_576} GiB; "
            f"{system.group(1)}",
            f"{first_line(['rt', 'version'])}; {first_line(['rustc', '--version'])}; {first_line(['gcc', '--version'])}",
            f"{first_line(['valgrind', '--version'])}; OpenSTA: {first_line(['sta', '-version'])}; Python {sys.version.split()[0]}; networkx: "
            f"{first_line([sys.executable, '-c', 'import networkx; print(networkx.__version__)']) if found(networkx)[0] else 'absent'}"]
