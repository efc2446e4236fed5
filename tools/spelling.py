#!/usr/bin/env python3
"""Spells the repository's own definitions and lemmas in the library's way: types in upper camel case, all else in snake case.

usage: python3 tools/spelling.py [FOLDER]     the folder that has crates/, this one if none is named

It was run once, after the kit's own script had turned the tree, and is kept so that the turn can be made again from the same commit.
A name is the repository's own where a file of specs/ or a lemma file of proofs/ declares it: a definition, a constructor, a field, a
parameter, a lemma. Names that the checker makes (a goal's, a step's) stay, and so do strings, comments but for names in backticks,
and everything outside clauses in the code.
"""
import os
import re
import sys

# A dash joins these words to what a lemma of proofs/ says of them.
JOINED = ("length", "records", "nth", "count")
# Names of the checker that the repository's own names meet.
MADE = re.compile(r"(returns|loop|invariant|decreases|drop|if|then|else)-.*|.*-(is|end|fits|bits|requires)")
ANSWERS = ("Answers.antt", "Invariants.antt", "Choices.antt", "Proof.antt")
WORD = r"[^\s(){}\[\]:;.,«»\"`|⌜⌝]+"
DECLARED = re.compile(rf"(?m)^( *)(?:(?:abbrev|unfoldable|pub|private) )*({WORD})((?: \{{[^{{}}\n]*\}})*\s+:)(?=\s)")
TYPED = re.compile(rf"(?m)^ *(?:pub )?(?:data|record)(?: pub)? ({WORD})")
BOUND = re.compile(r"[({]((?:[^\s(){}:;.,]+ )+): ")


def snake(name, lemma):
    if name[:1].isupper():
        return "".join(w[:1].upper() + w[1:] for w in re.split(r"[-_]", name))
    head, _, rest = name.partition("-")
    if lemma and head in JOINED and rest:
        return head + "-" + rest.replace("-", "_")
    return name.replace("-", "_")


def texts(root, ends):
    for folder, dirs, files in os.walk(os.path.join(root, "crates")):
        dirs[:] = sorted(d for d in dirs if d != "out")
        for f in sorted(files):
            if f.endswith(ends):
                yield os.path.join(folder, f)


def answers(path):
    return os.path.basename(path) in ANSWERS


def read(path):
    with open(path, encoding="utf-8") as f:
        return f.read()


def own_names(root):
    """The names with a dash, and those of them that specs/ or a contract declares."""
    names, stated = set(), set()
    for path in texts(root, (".antt",)):
        text = re.sub(r"--[^\n]*", "", read(path))
        for m in DECLARED.finditer(text):
            if not (answers(path) and m[1] == ""):
                names.add(m[2])
                if "/specs/" in path:
                    stated.add(m[2])
        names.update(m[1] for m in TYPED.finditer(text))
        for m in BOUND.finditer(text):
            names.update(m[1].split())
    for path in texts(root, (".rt",)):
        for m in re.finditer(r"\bas ([a-z][\w]*(?:-[\w]+)+)", read(path)):
            names.add(m[1])
    return {n for n in names if "-" in n and re.fullmatch(r"[A-Za-z][\w'₀-₉-]*", n)}, stated


def turn_words(text, turned, keep_dotted):
    def one(m):
        word = m[0]
        if word not in turned:
            return word
        if keep_dotted and (text[m.start() - 1 : m.start()] == "." and MADE.fullmatch(word)):
            return word
        return turned[word]

    return re.sub(WORD, one, text)


def turn_antt(path, turned):
    text = read(path)
    made = answers(path)
    staying = {m[2] for m in DECLARED.finditer(text) if made and m[1] == ""}
    local = {k: v for k, v in turned.items() if k not in staying and not (made and MADE.fullmatch(k) and f".{k}" in text)}
    lines = []
    for line in text.split("\n"):
        code, dash, comment = line, "", ""
        at = re.search(r"(^|\s)--(\s|$|-)", line)
        if at:
            code, comment = line[: at.start()], line[at.start() :]
        lines.append(turn_words(code, local, made) + turn_ticks(comment, local))
    return "\n".join(lines)


def turn_ticks(text, turned):
    return re.sub(r"`[^`\n]+`", lambda m: turn_words(m[0], turned, False), text)


def turn_rt(path, turned):
    """In code a name with a dash can stand in clauses and imports only: elsewhere a dash has spaces round it."""
    text = read(path)
    parts = re.split(r'("(?:[^"\\]|\\.)*"|//[^\n]*)', text)
    return "".join(turn_ticks(p, turned) if p.startswith("//") else p if p.startswith('"') else turn_words(p, turned, False) for p in parts)


def main(argv):
    root = argv[0] if argv else "."
    names, stated = own_names(root)
    turned = {n: snake(n, n not in stated) for n in names}
    turned = {k: v for k, v in turned.items() if k != v}
    back = {}
    for k, v in sorted(turned.items()):
        back.setdefault(v, []).append(k)
    for v, ks in back.items():
        if len(ks) > 1:
            print(f"fall together: {' '.join(ks)} -> {v}")
    standing = set()
    for path in texts(root, (".antt",)):
        standing.update(re.findall(WORD, re.sub(r"--[^\n]*", "", read(path))))
    for k, v in sorted(turned.items()):
        if v in standing:
            print(f"meets another: {k} -> {v}")
    for path in texts(root, (".antt", ".rt")):
        text = read(path)
        new = (turn_antt if path.endswith(".antt") else turn_rt)(path, turned)
        if new != text:
            with open(path, "w", encoding="utf-8") as f:
                f.write(new)
    print(f"{len(turned)} names are spelled anew")
    return 0


if __name__ == "__main__":
    raise SystemExit(main(sys.argv[1:]))
