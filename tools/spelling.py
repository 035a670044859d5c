#!/usr/bin/env python3
"""Brings the repository's own names to the spelling of the kit: words in snake case, types and modules in upper camel case, a prime as an
apostrophe. Run once, after the kit's port.py. Functions of src/ and exported names stay. `specs/contracts` becomes `specs/Inner`, since the kit
makes a module of the first name, and `proofs/laws` becomes `proofs/Laws`. A dash stays between two names and joins nothing else.

    tools/spelling.py [--say]      --say prints the table and writes nothing
"""
import collections
import glob
import os
import re
import subprocess
import sys

TOKEN = re.compile(r"[^\s(){}\[\].,;@\"`⌜⌝«»|!&?:]+")
DECLARED = re.compile(r"^\s*(?:pub |abbrev |unfoldable )*(?:data |record )?([^\s(){}\[\].,;]+) (?=[:({])")
OF_THE_TIE = re.compile(r" :\s*(?:\{[^}]*\} → )?(?:tie\.(?:Need|invariant|decreases)|statement\b)")


VALUES = {"refl", "sym", "none", "some", "true", "false", "zero", "suc", "one", "left", "right", "tt"}


def snake(word):
    """fooBar as foo_bar; a word that begins with a capital stays."""
    if not word[:1].islower():
        return word
    word = re.sub(r"([a-z0-9])([A-Z])", lambda m: m.group(1) + "_" + m.group(2).lower(), word)
    return word[0] + word[1:].lower()


def bare(text, mark):
    """The text without comments and strings."""
    return re.sub(r'"[^"\n]*"', '""', re.sub(re.escape(mark) + r".*", "", text))


def moved(path):
    return re.sub(r"(crates/[a-z_]+/proofs)/laws(?=[/.])", r"\1/Laws", re.sub(r"(crates/[a-z_]+/specs)/contracts(?=[/.])", r"\1/Inner", path))


def paths_turned(text, inner):
    """Module paths and file names in a text, with the two folders under their new names."""
    text = re.sub(r"(Rattle\.[a-z_]+\.proofs)\.laws\b", r"\1.Laws", text)
    text = re.sub(r"Rattle\.([a-z_]+)\.specs\.contracts\.([A-Za-z]+)",
                  lambda m: f"Rattle.{m.group(1)}.specs.{'Inner' if (m.group(1), m.group(2)) in inner else 'contracts'}.{m.group(2)}", text)
    text = re.sub(r"^(pub mod|mod) laws$", r"\1 Laws", text, flags=re.M)
    text = re.sub(r"^(pub mod|mod) contracts$", r"\1 Inner", text, flags=re.M)
    text = re.sub(r"\bproofs/laws(?=[/.`])", "proofs/Laws", text)
    return re.sub(r"\bspecs/contracts(?=[/.`])", "specs/Inner", text)


def files():
    tracked = subprocess.run(["git", "ls-files"], capture_output=True, text=True, check=True).stdout.split("\n")
    return [f for f in tracked if f]


def table(antt, rt):
    """Old name to new, for each name that the repository's definitions, lemmas, fields and variables have."""
    said = collections.Counter()
    top, local, within, tied, outside = set(), set(), set(), set(), set()
    for f in antt + rt:
        text = bare(open(f).read(), "--" if f.endswith(".antt") else "//")
        said.update(TOKEN.findall(text))
        for path, names in re.findall(r"^(?:ghost )?use ([^\s{;]+)\.\{([^}]*)\}", text, flags=re.M):
            if not re.match(r"Rattle\.(?!std\b|core\b)", path):
                outside.update(n.split(" as ")[0].strip() for n in names.split(","))
        if f.endswith(".antt"):
            held = set()
            lines = text.split("\n")
            for line, after in zip(lines, lines[1:] + [""]):
                inside = re.match(r"\s+([a-z][^\s(){}\[\].,;]*) : ", line)
                if inside and "-" not in inside.group(1):
                    within.add(inside.group(1))
                found = DECLARED.match(line)
                if found and not line.lstrip().startswith("use ") and (line[:1].strip() or "-" in found.group(1)):
                    if OF_THE_TIE.search(line + " " + after):
                        tied.add(found.group(1))
                    else:
                        held.add(found.group(1))
            (top if not f.endswith("/Proof.antt") else local).update(held)
    local -= tied
    words = {}
    for w in said:
        if "-" not in w and re.match(r"[a-z]", w) and re.search(r"[a-z0-9][A-Z]", w) and w not in outside:
            words[w] = snake(w)
    for lemma in (top | local | within) & set(words.values()):
        words[lemma] = lemma + "_lem"
    names = {snake(t) for t in top if "-" not in t} | {o for o in outside if re.match(r"[a-z]", o) and "-" not in o} - VALUES
    taken = set(said) | set(words.values())
    for lemma in sorted(top | local):
        if "-" not in lemma[1:] or not re.match(r"[a-z]", lemma) or lemma in outside:
            continue
        parts, joined, i = lemma.replace("getD", "get_or").split("-"), [], 0
        parts = [snake(p) for p in parts]
        while i < len(parts):
            for j in range(len(parts), i, -1):
                if "_".join(parts[i:j]) in names:
                    break
            else:
                j = i + 1
            joined.append("_".join(parts[i:j]))
            i = j
        new = joined[0]
        for before, part in zip(joined, joined[1:]):
            new += ("-" if before in names and part in names else "_") + part
        if new != lemma and new in taken:
            new += "_lem"
        if new in taken and new != lemma:
            sys.exit(f"two names fall together: {lemma}, {new}")
        taken.add(new)
        words[lemma] = new
    return {old: new for old, new in words.items() if old != new}


def respelled(text, words, kind):
    """The text with each name of the table; in a page or a comment a name with a dash counts only between backquotes or as an edit names it."""
    def one(m):
        word = m.group(0)
        before = text[m.start() - 1] if m.start() else ""
        if "-" in word and before == "." and kind != "use":
            return word
        return words.get(word, word)

    return TOKEN.sub(one, text)


def plain(words):
    return {o: n for o, n in words.items() if "-" not in o}


def turn(path, text, words, inner):
    text = paths_turned(text, inner)
    if path.endswith(".antt") or path.endswith(".rt"):
        mark = "--" if path.endswith(".antt") else "//"
        out = []
        for line in text.split("\n"):
            at = line.find(mark)
            code, comment = (line, "") if at < 0 else (line[:at], line[at:])
            pieces = re.split(r'("[^"]*")', code)
            kind = "use" if re.match(r"(?:ghost )?use ", code) else "code"
            code = "".join(p if p.startswith('"') else respelled(p, words, kind) for p in pieces)
            comment = re.sub(r"`[^`]*`", lambda m: respelled(m.group(0), words, "use"), comment)
            out.append(code + respelled(comment, plain(words), "use"))
        return "\n".join(out)
    if path.endswith(".edit"):
        return respelled(text, words, "use")
    text = re.sub(r"`[^`\n]*`", lambda m: respelled(m.group(0), words, "use"), text)
    return respelled(text, plain(words), "use")


def main():
    os.chdir(os.path.join(os.path.dirname(os.path.abspath(__file__)), ".."))
    tracked = files()
    antt = [f for f in tracked if f.endswith(".antt")]
    rt = [f for f in tracked if f.endswith(".rt")]
    inner = {(f.split("/")[1], os.path.basename(f)[:-5]) for f in antt if "/specs/contracts/" in f}
    words = table(antt, rt)
    if "--say" in sys.argv[1:]:
        for old, new in sorted(words.items()):
            print(old, new)
        return
    for f in antt + rt + [f for f in tracked if f.endswith(".edit") or re.fullmatch(r"(?:docs/[A-Z]+|README)\.md", f)]:
        text = open(f).read()
        new = turn(f, text, words, inner)
        to = moved(f)
        if to != f:
            os.makedirs(os.path.dirname(to), exist_ok=True)
            subprocess.run(["git", "mv", f, to], check=True)
        if new != text:
            open(to, "w").write(new)


if __name__ == "__main__":
    main()
