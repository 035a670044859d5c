"""Trouble: nothing on standard output, one line on standard error that names it, and all files as they were."""
import os
import pathlib
import resource
import tempfile

from .programs import ROOT, run, start

CERTIFICATE = 524288  # bytes of a certificate that `verify` reads
P = (ROOT / "circuits" / "P.aag").read_bytes()
OTHER = (ROOT / "crates" / "verify" / "data" / "Q.certificate").read_bytes()
STAYS = "exists and isn't a certificate"


def short_files():
    """No file can grow beyond some bytes."""
    resource.setrlimit(resource.RLIMIT_FSIZE, (16, 16))


def cases():
    """Program, arguments and what the line must hold."""
    for program in ("certify", "verify"):
        for words in ([], ["P.aag"], ["P.aag", "certificate", "more"]):
            yield program, words, f"usage: {program} CIRCUIT CERTIFICATE"
        for name in ("missing", "folder", "folder/missing", "P.aag/missing", "n" * 300):
            yield program, [name, "certificate"], f"{name}: "
        yield program, ["n" * 5000, "certificate"], "argument: "
        yield program, ["P.aag", "n" * 5000], "argument: "
    for name in ("missing", "folder", "n" * 300):
        yield "verify", ["P.aag", name], f"{name}: "
    yield "verify", ["P.aag", "long"], f"long: longer than {CERTIFICATE} bytes"
    for name in ("missing/certificate", "P.aag/certificate", "folder", "n" * 255, "n" * 4090):
        yield "certify", ["P.aag", name], f"{name}: "
    for name in ("P.aag", "other.aag", "link", "hard", "empty", "text", "cut", "more", "long"):
        yield "certify", ["P.aag", name], f"{name}: {STAYS}"
    yield "certify", ["P.aag", "pipe"], "pipe: isn't a regular file"
    yield "certify", ["P.aag", os.devnull], f"{os.devnull}: {STAYS}"
    yield "certify", ["P.aag", "circle"], "circle: "
    yield "answers", ["missing"], "missing: "
    yield "answers", ["folder"], "folder: "


def contents(folder):
    """Every file's bytes, and where each link leads."""
    return {str(file): os.readlink(file) if file.is_symlink() else file.read_bytes() if file.is_file() else ""
            for file in sorted(folder.rglob("*"))}


def place(folder):
    """Files that stand where a certificate could be written."""
    (folder / "folder").mkdir()
    for name, bytes_ in (("P.aag", P), ("other.aag", P), ("certificate", OTHER), ("empty", b""), ("text", b"what was there before\n"),
                         ("cut", OTHER[:-1]), ("more", OTHER + b"\0"), ("long", bytes(CERTIFICATE + 1)), ("longest", bytes(CERTIFICATE))):
        (folder / name).write_bytes(bytes_)
    (folder / "hard").hardlink_to(folder / "P.aag")
    for name, to in (("link", "folder/behind"), ("folder/behind", "../P.aag"), ("circle", "circle")):
        (folder / name).symlink_to(to)
    os.mkfifo(folder / "pipe")


def replaced(tests, folder):
    """A certificate is replaced, behind links too, and they stay; a link that leads nowhere yet gets its file."""
    (folder / "folder" / "to").symlink_to(folder / "folder" / "near")
    for name, to in (("linked", "folder/to"), ("folder/near", "../certificate"), ("ahead", "folder/new")):
        (folder / name).symlink_to(to)
    links = {name: os.readlink(folder / name) for name in ("linked", "folder/to", "folder/near", "ahead")}
    made = {}
    for name, at in (("certificate", "certificate"), ("linked", "certificate"), ("ahead", "folder/new"), ("fresh", "fresh")):
        ran = run([*start("certify"), "P.aag", name], cwd=folder)
        made[name] = (folder / at).read_bytes()
        tests.that(ran == (b"realizable 74\n", b"", 0) and len(made[name]) == 74, f"certify P.aag {name}: {ran}")
        (folder / "certificate").write_bytes(OTHER)
    tests.that(len(set(made.values())) == 1, "the same certificate at each place")
    tests.that(links == {name: os.readlink(folder / name) for name in links}, "links stay")


def told(tests, folder, name, words, line, **more):
    """One test; the files of the folder stay as they are."""
    before = contents(folder)
    ran = run([*start(name), *words], cwd=folder, **more)
    one = ran.err.count(b"\n") == 1 and ran.err.endswith(b"\n") and line.encode() in ran.err
    shown = " ".join([name, *(word[:40] for word in words)])
    tests.that(not ran.out and one and ran.status == 0 and contents(folder) == before, f"{shown}: {ran}")


def compare(tests):
    began = tests.passed + tests.failed
    with tempfile.TemporaryDirectory() as made:
        folder = pathlib.Path(made)
        place(folder)
        for name, words, line in cases():
            told(tests, folder, name, words, line)
        told(tests, folder, "certify", ["P.aag", "certificate"], "certificate", preexec_fn=short_files, restore_signals=False)
        opened = os.open(folder, os.O_RDONLY)
        for name in ("verdict", "reprint"):
            told(tests, folder, name, [], "standard input: ", stdin=opened)
        os.close(opened)
        with open("/dev/full", "wb") as full:
            for name in ("verdict", "reprint"):
                with open(folder / "P.aag", "rb") as circuit:
                    told_full(tests, folder, name, [], full, stdin=circuit)
            told_full(tests, folder, "verify", ["P.aag", "certificate"], full)
            told_full(tests, folder, "certify", ["P.aag", "made"], full)
        ran = run([*start("verify"), "P.aag", "longest"], cwd=folder)
        tests.that(ran == (b"refused 11 0\n", b"", 0), f"a certificate of {CERTIFICATE} bytes is read: {ran}")
        replaced(tests, folder)
    print(f"trouble: {tests.passed + tests.failed - began} cases")


def told_full(tests, folder, name, words, full, **more):
    """An answer that can't be written to standard output."""
    ran = run([*start(name), *words], cwd=folder, stdout=full, **more)
    tests.that(ran.err.count(b"\n") == 1 and ran.err.startswith(b"standard output: "), f"{name} to a full device: {ran}")
