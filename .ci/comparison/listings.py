"""`verdict` and `second listing` (01, "Listings to compare")."""
import collections

from .programs import in_turn, ours, second_answers


def verdict(file):
    with open(file, "rb") as opened:
        return ours("verdict", stdin=opened)


def outcomes(listing):
    """What a listing counts as."""
    first, *states = [line.split() for line in listing.decode().splitlines()]
    if first[0] == "realizable":
        outside = any(state[1] == "0" for state in states)
        return ["realizable", *(["realizable with a state outside the region"] if outside else [])]
    if first[0] == "unrealizable":
        late = int(states[0][1]) > 2
        return ["unrealizable", *(["unrealizable with a reset rank above 2"] if late else [])]
    return []


def compare(tests, what, files):
    """How often both gave a listing of which kind."""
    wanted, seen, same = second_answers("listing", [[file] for file in files]), collections.Counter(), 0
    for file, said in zip(files, in_turn(verdict, files)):
        if tests.that(said == wanted.get(str(file)) != b"", f"{file}: the listings differ"):
            same += 1
            seen.update(outcomes(said))
    print(f"verdict and second listing, {what}: {same} of {len(files)} agree")
    return seen


def compare_stored(tests, files):
    """The listings that stand beside the circuits."""
    wanted = second_answers("listing", [[file] for file in files])
    for file in files:
        stored = file.with_suffix(".listing").read_bytes()
        tests.that(stored == wanted.get(str(file)), f"{file}: its stored listing isn't the second program's")
