"""`certify` and `second certify` (01, "The certificate"; 02, T-07, with the word `packed`): what they print and, byte for byte, what they write,
over a certificate too. A refusal leaves the certificate's file as it was, and nothing else is left behind."""
import collections
import pathlib
import tempfile

from .programs import ROOT, in_turn, ours, second

BEFORE = (ROOT / "crates" / "verify" / "data" / "Q.certificate").read_bytes()  # what was there before: only a certificate is replaced


def certified(file, program, before, form):
    """What a program prints for a file, and all files of the certificate's folder afterwards."""
    with tempfile.TemporaryDirectory() as folder:
        certificate = pathlib.Path(folder) / "certificate"
        if before:
            certificate.write_bytes(before)
        said = program("certify", file, certificate, *form)
        return said, {left.name: left.read_bytes() for left in certificate.parent.iterdir()}


def compare(tests, what, files, *form):
    """How often both gave which verdict, with the words of a form. Every other certificate has a file at its place already."""
    def both(numbered):
        before = BEFORE if numbered[0] % 2 else b""
        theirs = certified(numbered[1], second, before, form)
        kept = {"certificate": before} if before else {}
        return certified(numbered[1], ours, before, form), theirs, kept

    seen = collections.Counter()
    for file, (said, theirs, kept) in zip(files, in_turn(both, list(enumerate(files)))):
        verdict = theirs[0].decode().split(" ")[0]
        as_it_was = verdict != "refused" or said[1] == kept
        if tests.that(said == theirs and as_it_was, f"{file}: certify {said[0]}, second {theirs[0]}, or the files differ"):
            seen[verdict] += 1
    print(f"{' '.join(('certify and second certify', *form))}, {what}: {seen.total()} of {len(files)} agree")
    return seen
