"""`answers` and `second read` (01, "The numbers", 1 to 9; 02, T-01: 16)."""
import collections

from .programs import batches, ours, second_answers


def compare(tests, what, files):
    """How often both gave which answer."""
    wanted, seen = second_answers("read", [[file] for file in files]), collections.Counter()
    for some in batches(files):
        lines = ours("answers", *some).decode().splitlines()
        said = dict(line.rsplit(": ", 1) for line in lines if ": " in line)
        for name in map(str, some):
            theirs = wanted.get(name, b"").decode().strip()
            if tests.that(said.get(name) == theirs != "", f"{name}: answers {said.get(name)}, second {theirs}"):
                seen[theirs.rsplit(" ", 1)[0]] += 1
    print(f"answers and second read, {what}: {seen.total()} of {len(files)} agree")
    return seen
