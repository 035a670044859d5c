"""`reprint` and `second print` (01, "The numbers", last paragraph), and that the print of a print is the print."""
import collections
import re

from .programs import in_turn, ours, second_answers

COMMENT = re.compile(rb"\nc\n")
COMMON = re.compile(rb"[\n -~]*")
NAME = re.compile(rb"^[ilo][0-9]+ (?!\w+$).*$", re.M)
LEAST = {"printed": 1000, "a name of other bytes than letters and digits": 200, "a comment of other bytes than text": 100}


def reprint(text):
    return ours("reprint", input=text)


def outcomes(file):
    """What a file that is printed counts as."""
    lines, *comment = COMMENT.split(file, maxsplit=1)
    odd = ["a name of other bytes than letters and digits"] if NAME.search(lines) else []
    free = ["a comment of other bytes than text"] if comment and not COMMON.fullmatch(comment[0]) else []
    return ["printed", *odd, *free]


def compare(tests, what, files):
    """How often both printed which kind of file."""
    wanted, seen = second_answers("print", [[file] for file in files]), collections.Counter()
    texts = [file.read_bytes() for file in files]
    prints = in_turn(reprint, texts)
    again = in_turn(lambda text: text if text.startswith(b"refused") else reprint(text), prints)
    same = 0
    for file, text, said, twice in zip(files, texts, prints, again):
        tests.that(twice == said, f"{file}: the print of its print differs")
        if tests.that(said == wanted.get(str(file)) != b"", f"{file}: the prints differ"):
            same += 1
            seen.update([] if said.startswith(b"refused") else outcomes(text))
    print(f"reprint and second print, {what}: {same} of {len(files)} agree")
    return seen
