#!/usr/bin/env python3
"""Lists the places in crates/*/src that docs/DESIGN-PASS.md counts, a line for each; with -c only how many there are.

A place is a function, a field or a line of code, as each entry of PLACES says.
"""
import glob
import os
import re
import sys

os.chdir(os.path.dirname(os.path.dirname(os.path.abspath(__file__))))


def functions(text):
    """Each function of a file: the number of its line, its name, its signature, its clauses and its body."""
    lines = text.split("\n")
    for n, line in enumerate(lines):
        found = re.match(r"^( *)(?:pub(?:\([a-z]+\))? )?(?:extern \"C\" )?fn (\w+)", line)
        if not found:
            continue
        depth = len(found.group(1))
        signature, clauses, body, part = [], [], [], "signature"
        for k in range(n, len(lines)):
            here = lines[k]
            if part == "signature" and re.match(r"^ *(requires|ensures) ", here):
                part = "clauses"
            if part != "body" and here == " " * depth + "{":
                part = "body"
                continue
            if part == "body" and here == " " * depth + "}":
                break
            if here == " " * depth + "{}":
                break
            if part == "signature":
                signature.append(here)
                if here.rstrip().endswith(";"):
                    break
                if here.rstrip().endswith("{"):
                    part = "body"
                elif here.rstrip().endswith("{}"):
                    break
            elif part == "clauses":
                clauses.append(here)
                if here.rstrip().endswith("};"):
                    break
            else:
                body.append(here)
        yield n + 1, found.group(2), "\n".join(signature), "\n".join(clauses), "\n".join(body)


def code(body):
    return "\n".join(re.sub(r"//.*", "", line) for line in body.split("\n"))


def has(pattern):
    return lambda name, signature, clauses, body: re.search(pattern, code(body), re.M)


def signed(pattern):
    return lambda name, signature, clauses, body: re.search(pattern, signature)


def claused(pattern):
    return lambda name, signature, clauses, body: re.search(pattern, clauses)


def named(pattern, gives=""):
    return lambda name, signature, clauses, body: re.search(pattern, name) and re.search(gives, signature)


def commanded(name, signature, clauses, body):
    wanted = ("heap: Global", "words: &mut SplitWhitespace", "out: &mut String")
    return sum(word in signature for word in wanted) >= 2


FUNCTION, LINE = "function", "line"

PLACES = [
    ("1a a function that returns 0 for nothing", FUNCTION, lambda n, s, c, b: b.strip() == "0"),
    ("1b one of Option and Result in another", FUNCTION, signed(r"-> .*(Result<(Result|Option)<|Option<Result<)")),
    ("1c a refusal made of numbers", FUNCTION, has(r"refused\(\d+|Refusal \{\s*number: \d+")),
    ("1d a constant refusal made of numbers", LINE, r"^const \w+: Refusal"),
    ("1e a kind of record told by its number", FUNCTION, has(r"Kind::of\(|\.number\(\) &&|kind [!=]= |\.number\(\)$")),
    ("1f a match on numbers", FUNCTION, has(r"^ +\d+ => ")),
    ("1g a bool that says which, or whether to go on", FUNCTION, signed(r"[a-z]: bool|Result<bool")),
    ("1h a flag beside a value", LINE, r"^ +(?:pub(?:\(crate\))? )?\w+: (?:bool|\[bool.*),$"),
    ("1i an Option of one's own", LINE, r"Rules\.\{.*\b(?:Held|nothing|has)\b"),
    ("1j an enum that says done or why not", LINE, r"^ +Done,$"),
    ("3a a loop over a range", LINE, r"^ *for \w+ in [^{]*\.\."),
    ("3b a while", LINE, r"^ *while "),
    ("3c a count kept by hand", LINE, r"\+= 1;|(\w+) = \1\.saturating_add\(1\)"),
    ("3d an index compared with a length by hand", LINE, r"\b\w+ (?:<|>=|<=) (?:[\w.]+\.len\(\)|self\.count\(\)|MEMBERS|SITES|CLIENTS|LAST_\w+)\b"),
    ("4a an equality by hand", FUNCTION, named(r"^(eq|same\w*|alike)$", "bool")),
    ("4b an order by hand", FUNCTION, named(r"^(later|is_later|above|not_rising)$")),
    ("4c a conversion by hand", FUNCTION, lambda n, s, c, b: re.search(r"^(of|of_\w+|number|u\d+_bytes)$", n) and not re.search(r"first: usize|&mut self", s)),
    ("4d words for a value by hand", FUNCTION, signed(r"-> &'static str")),
    ("4e text pushed piece by piece", FUNCTION, named(r"^(push_\w+|next_item|end_list|end_with)$")),
    ("5a parameters that travel together: allocator, words, output", FUNCTION, commanded),
    ("5b the object's meaning spelled out in a contract", FUNCTION, claused(r"kept_of O\.Object\.rules|views O\.Object\.rules")),
    ("5c that an office stays sound, spelled out in a contract", FUNCTION, claused(r"Sound .*figures")),
    ("5d that notary and figures stay", FUNCTION, claused(r"notary ≡ .*figures ≡")),
    ("5e that a message is readable", FUNCTION, claused(r"requires \{.*Readable f message")),
    ("5f that a part begins below 38", FUNCTION, claused(r"first ≤ 38")),
    ("6a a buffer, a table or a set in an array field", LINE, r"^ +(?:pub(?:\(crate\))? )?\w+: \[(?!None|false|Slot \{|\d).*; .*\],$"),
    ("6b a length or a count beside a buffer", LINE, r"^ +(?:pub )?(?:count|size|total): (?:usize|u\d+),$"),
    ("7a a switch on a word", FUNCTION, has(r"match (word|command)|command\.as_str\(\) == ")),
    ("7b one call for each kind of object", FUNCTION, has(r"AnyPool::Titles\(|Kept::Titles => ")),
]


def shape(body):
    """A body with names by the order in which they first stand, and all numbers, types of numbers and texts alike."""
    text = re.sub(r'"[^"]*"', '"S"', code(body))
    text = re.sub(r"\b(?:u8|u16|u32|u64|usize)\b", "N", text)
    text = re.sub(r"\b\d[\d_]*\b", "0", text)
    names = {}
    return re.sub(r"\b[A-Za-z_]\w*\b", lambda m: names.setdefault(m.group(0), f"n{len(names)}"), " ".join(text.split()))


def twins(files):
    """Functions of three lines or more whose bodies have one shape, a line for each such group."""
    by_shape = {}
    for path in files:
        for n, name, signature, clauses, body in functions(open(path, encoding="utf-8").read()):
            if len(code(body).split("\n")) >= 3:
                by_shape.setdefault(shape(body), []).append(f"{path}:{n} {name}")
    for group in by_shape.values():
        if len(group) > 1:
            yield " ~ ".join(group)


def found(files, kind, test):
    for path in files:
        text = open(path, encoding="utf-8").read()
        if kind == LINE:
            for n, line in enumerate(text.split("\n"), 1):
                bare = re.sub(r"//.*", "", line)
                if re.search(r"^ *(requires|ensures) |^ghost use .*proofs", bare):
                    continue
                if re.search(test, bare):
                    yield f"{path}:{n}: {line.strip()}"
        else:
            for n, name, signature, clauses, body in functions(text):
                if test(name, signature, clauses, body):
                    yield f"{path}:{n}: fn {name}"


def main():
    counts_alone = "-c" in sys.argv[1:]
    wanted = [a for a in sys.argv[1:] if a != "-c"]
    files = sorted(glob.glob("crates/*/src/**/*.rt", recursive=True))
    if not wanted or "2" in wanted:
        groups = list(twins(files))
        print(f"2 functions of one shape, in groups: {len(groups)}")
        if not counts_alone:
            for group in groups:
                print(f"  {group}")
    for title, kind, test in PLACES:
        if wanted and not any(title.startswith(w) for w in wanted):
            continue
        places = list(found(files, kind, test))
        print(f"{title}: {len(places)}")
        if not counts_alone:
            for place in places:
                print(f"  {place}")


if __name__ == "__main__":
    main()
