"""The programs and the independent second program: how they are built, started and listened to."""
import collections
import concurrent.futures
import functools
import os
import pathlib
import re
import subprocess
import sys

ROOT = pathlib.Path(__file__).resolve().parents[2]
BUILD = ROOT / "target" / "second"
SECOND = BUILD / "release" / "second"
BATCH = 250
LONGEST = 60  # seconds for one call
STACK = 1 << 22  # bytes that a program gets by with

Ran = collections.namedtuple("Ran", "out err status")


@functools.cache
def words_before():
    """The words that go before a program, as `.ci/program` knows them."""
    return subprocess.run([ROOT / ".ci" / "program"], check=True, stdout=subprocess.PIPE, text=True).stdout.splitlines()


def start(program):
    """The words that start a program."""
    return [*words_before(), ROOT / "crates" / program / "out" / program]


def run(words, **more):
    """What a call writes to standard output and standard error, and its status; a call that hangs has no status."""
    more = {"stdout": subprocess.PIPE, "stderr": subprocess.PIPE, "timeout": LONGEST, **more}
    if "input" not in more:
        more.setdefault("stdin", subprocess.DEVNULL)
    try:
        ran = subprocess.run([str(word) for word in words], check=False, **more)
    except subprocess.TimeoutExpired:
        return Ran(b"", b"(took too long)", None)
    return Ran(ran.stdout, ran.stderr, ran.returncode)


def answer(ran):
    """What a call answered; one that complains, fails or hangs has written nothing that compares."""
    return ran.out if ran.status == 0 and not ran.err else b"(failed) " + ran.err


def ours(program, *words, **more):
    return answer(run([*start(program), *words], **more))


def second(command, *words):
    return answer(run([SECOND, command, *words]))


def in_turn(work, things):
    """The results of `work` for all things, several at a time."""
    with concurrent.futures.ThreadPoolExecutor(os.cpu_count()) as pool:
        return list(pool.map(work, things))


def batches(things):
    return (things[at:at + BATCH] for at in range(0, len(things), BATCH))


def second_answers(command, groups):
    """The second program's answer to each group of files, as bytes, by the group's first name. Heads `== NAME` part them where there is
    more than one group: hence one of empty files too."""
    said = {}
    for some in batches(groups):
        names = [str(group[0]) for group in some] + [os.devnull]
        words = [name for group in some for name in group] + [os.devnull] * len(some[0])
        head = rf"^== ({'|'.join(map(re.escape, names))})\n".encode()
        parts = re.split(head, second(command, *words), flags=re.M)
        said.update({os.fsdecode(name): text for name, text in zip(parts[1::2], parts[2::2])})
    return said


def generated(tests, command, seed, count, folder):
    """Files that the second program makes from a seed."""
    second(command, seed, count, folder)
    made = sorted(pathlib.Path(folder).glob("*.aag"))
    tests.that(len(made) == count, "as many files as asked for are generated")
    return made


def cargo(*words):
    target = {**os.environ, "CARGO_TARGET_DIR": str(BUILD)}
    return subprocess.run(["cargo", *words, "--release", "--offline", "--quiet"], cwd=ROOT / "tests" / "second", env=target,
                          check=False, stdout=subprocess.PIPE, text=True)


def build_second(tests):
    if cargo("build").returncode != 0:
        sys.exit("the second program can't be built")
    ran = cargo("test")
    own = sum(int(n) for n in re.findall(r"(\d+) passed", ran.stdout))
    tests.passed += own
    tests.that(ran.returncode == 0 and own > 0, "the second program's own tests")
    print(f"the second program's own tests: {own} passed")
