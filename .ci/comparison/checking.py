"""`verify` and `second verify` (01, "The numbers", 11 to 15) on certificates that are damaged and on certificates that pass and that the
writer wouldn't write."""
import collections

from .programs import generated, in_turn, ours, second, second_answers

DAMAGED = 3000
LEAST = {
    **{f"refused {number}": 50 for number in range(11, 16)},
    "passed and other than the writer's": 300,
    "passed with a smaller region": 50,
    "passed with another reply or attack": 50,
    "passed with a larger rank": 50,
    "passed with a rank above 2^L": 50,
    "passed with a byte that isn't read": 50,
    "passed with packed replies": 300,
    "passed with packed bits that aren't read": 50,
}


def compare(tests, seed, count, folder):
    pairs = [(file, file.with_suffix(".cert")) for file in generated(tests, "generate-certificates", seed, count, folder)]
    wanted, seen = second_answers("verify", pairs), collections.Counter()
    for (file, _), said in zip(pairs, in_turn(lambda pair: ours("verify", *pair), pairs)):
        theirs = wanted.get(str(file), b"")
        if tests.that(said == theirs != b"", f"{file}: verify {said}, second {theirs}"):
            seen[theirs.decode().strip().rsplit(" ", 1)[0]] += 1
    print(f"verify and second verify, generated certificates: {seen.total()} of {len(pairs)} agree")
    for line in second("count-certificates", folder).decode().splitlines():
        outcome, often = line.rsplit(" ", 1)
        if outcome.startswith("passed"):
            seen[outcome] = int(often)
    tests.at_least(LEAST, seen, "generated certificates")
    damaged = sum(seen[f"refused {number}"] for number in range(11, 16))
    tests.at_least({"refused 11 to 15": DAMAGED}, {"refused 11 to 15": damaged}, "generated certificates")
