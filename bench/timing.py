"""How the programs that are measured are started and timed: the proved ones (`rt ci`) and bench/fast.c as bench/native makes them, and
the independent second program (`.ci/compare`)."""
import functools
import os
import pathlib
import platform
import resource
import shutil
import subprocess
import sys

sys.path.insert(0, str(pathlib.Path(__file__).resolve().parents[1] / ".ci"))
from comparison.programs import ROOT, SECOND

os.sched_setaffinity(0, {max(os.sched_getaffinity(0))})  # one processor for all, since another may be busier

TIMES = 25
ENOUGH = 20.0  # seconds; no more runs behind this many


def begin(about, programs, second=False):
    """Ends at once for `--help`, or if something is lacking: all of it is said."""
    if "--help" in sys.argv[1:]:
        sys.exit(print(about))
    lacking = [] if shutil.which("rt") else ["the Rattle kit's rt on the path"]
    if not shutil.which("lscpu"):
        lacking.append("lscpu")
    missing = [program for program in programs if not (ROOT / "crates" / program / "out" / program).exists()]
    if missing:
        lacking.append(f"{', '.join(missing)}: rt ci, or rt run in the crate's folder")
    if second and not SECOND.exists():
        lacking.append("the second program: .ci/compare")
    if lacking:
        sys.exit("\n".join(["lacking:", *lacking]))


@functools.cache
def start(program):
    """The words that start a proved program, or fast, natively."""
    made = subprocess.run([ROOT / "bench" / "native", program], stdout=subprocess.PIPE, text=True, check=False)
    if made.returncode != 0:
        sys.exit(f"{program} can't be made for this processor")
    return made.stdout.splitlines()


def quiet(words):
    """A call whose output isn't looked at; one that fails ends the measurement."""
    ran = subprocess.run([str(word) for word in words], stdin=subprocess.DEVNULL, stdout=subprocess.PIPE, stderr=subprocess.STDOUT,
                         check=False)
    if ran.returncode != 0:
        sys.exit(f"{words}: {ran.stdout.decode()}")


def seconds(words):
    """The processor time of a call, so that other work on the machine counts little. The start of the program is in it."""
    before = resource.getrusage(resource.RUSAGE_CHILDREN)
    quiet(words)
    after = resource.getrusage(resource.RUSAGE_CHILDREN)
    return after.ru_utime - before.ru_utime + after.ru_stime - before.ru_stime


def best(*calls, times=TIMES, enough=ENOUGH):
    """The best time of each call over several runs, taken in turn, as many as fit."""
    seen = []
    while len(seen) < times and sum(map(sum, seen)) < enough:
        seen.append([seconds(words) for words in calls])
    return [min(one) for one in zip(*seen)]


def machine():
    """The processor and how busy it is, and what runs on it."""
    kind, how = platform.machine(), "all native"
    for line in subprocess.run(["lscpu"], stdout=subprocess.PIPE, text=True, check=False).stdout.splitlines():
        if line.startswith("Model name:"):
            kind = f"{line.split(':')[1].strip()} ({kind})"
    return f"{kind}, {os.cpu_count()} processors, load {os.getloadavg()[0]:.1f}; {how}"
