#!/usr/bin/env python3
"""Brings the names of this repository's own definitions and lemmas to the library's spelling.

usage: python3 tools/respell.py [--list]      once, at the top of the repository, after the toolchain's own scripts

Words are in snake case, types and theorems in upper camel case. In a lemma's name a dash stays where it joins the names of two
functions, as in length-field; a plain word is added with an underscore. Functions of src/, strings, comments of src/ and names of
the library stay. With --list it only prints the names, old and new.
"""
import collections
import glob
import os
import re
import sys

TOKEN = re.compile(r"[^\s(){}\[\],;.\"`:=λ|«»]+")
LIBRARY = {"length", "append", "take", "drop", "map", "filter", "replicate", "reverse", "bitXor", "bit_xor", "bit_and"}
# words of the definitions that are plain words in a lemma's name
PLAIN = {"after", "count", "digit", "digits-on", "end", "frames", "joined", "last", "listed", "message", "none", "number", "parts", "pieces", "refused", "rest",
         "round", "rounds", "some_of", "start", "told", "value", "within", "word", "frame-length"}
# bit_and and bit_xor are the library's, of two numbers of any size
SPECIAL = {"bit-and": "bits_and", "bit-xor": "bits_xor", "bit-and-is": "bits_and_is", "bit-xor-is": "bits_xor_is", "bit-xor-lt": "bits_xor_lt",
           "bit-xor-twice": "bits_xor_twice", "in-frames": "in_frames", "then-frames": "then_frames", "then-on": "then_on", "then-read": "then_read",
           "getD-xor": "get_or-xor_bytes", "product-xor-left": "product-xor_left", "data-keys-some-of": "data_keys_some_of", "read-frame-length": "read_frame_length"}
MADE = ("in-", "if-", "else-", "then-", "loop-", "returns", "overflow_", "bounds-", "match-")


def files(pattern):
    return [p for p in sorted(glob.glob(pattern, recursive=True)) if "/out/" not in p]


def antt():
    return files("crates/*/specs/**/*.antt") + files("crates/*/proofs/**/*.antt")


def declarations():
    """name -> kind -> files; kinds: type, term, field, goal."""
    found = collections.defaultdict(lambda: collections.defaultdict(set))
    for p in antt():
        lines = open(p, encoding="utf-8").read().split("\n")
        record = None
        for i, line in enumerate(lines):
            m = re.match(r"^(?:(?:abbrev|unfoldable|pub) )*(record|data) ([^\s:()]+)", line)
            if m:
                found[m[2]]["type"].add(p)
                record = m[1]
                continue
            if re.match(r"^\S", line):
                record = None
            m = re.match(r"^(\s*)(?:(?:abbrev|unfoldable|pub) )*([^\s:()=λ]+) :( |$)", line)
            if not m or "." in m[2] or m[2] == "let":
                continue
            if m[1]:
                found[m[2]]["field" if record else "inner"].add(p)
                continue
            signature = line
            for more in lines[i + 1:]:
                if not re.match(r"^\s+\S", more):
                    break
                signature += " " + more.strip()
            if re.search(r": goal\.", signature):
                found[m[2]]["goal"].add(p)
            elif re.search(r"(→|:) Type( 0| \d)?\s*$", signature):
                found[m[2]]["type"].add(p)
            else:
                found[m[2]]["term"].add(p)
    return found


def camel(name):
    return "".join(w[:1].upper() + w[1:] for w in re.split("[-_]", name))


def snake(name):
    return name.replace("-", "_")


def lemma(name, words):
    """The dash stays between the names of two functions, and only there."""
    parts = name.split("-")
    said, i = [], 0
    while i < len(parts):
        for j in range(len(parts), i, -1):
            word = "-".join(parts[i:j])
            if word not in PLAIN and (word in words or snake(word) in words):
                said.append((snake(word), True))
                i = j
                break
        else:
            said.append((parts[i], False))
            i += 1
    out = said[0][0]
    for (_, a), (word, b) in zip(said, said[1:]):
        out += ("-" if a and b else "_") + word
    return out


def renamings():
    found = declarations()
    words = set(LIBRARY)
    for name, kinds in found.items():
        if any("/specs/" in p for p in kinds.get("term", ())):
            words.add(name)
    out = {}
    for name, kinds in found.items():
        if "-" not in name or "goal" in kinds or name.startswith(MADE) and name not in SPECIAL:
            continue
        if "type" in kinds:
            out[name] = camel(name)
        elif name in SPECIAL:
            out[name] = SPECIAL[name]
        elif any("/specs/" in p for ps in kinds.values() for p in ps):
            out[name] = snake(name)
        elif "term" in kinds:
            out[name] = lemma(name, words)
        else:
            out[name] = snake(name)
    return out, found


def foreign(text):
    """Names that a file takes from elsewhere, which stay."""
    names = set()
    for m in re.finditer(r"(?:ghost )?use (?!Rattle\.(?:%s)\.)[^\s{;]+\.\{([^}]*)\}" % "|".join(OWN), text):
        for item in m[1].split(","):
            names.add(item.strip().split(" as ")[0])
    return names


def turn(text, table, keep, skip):
    """Replaces whole names; `skip` matches what stays as it is."""
    out, at = [], 0
    for m in skip.finditer(text):
        out.append(TOKEN.sub(lambda t: t[0] if t[0] in keep else table.get(t[0], t[0]), text[at:m.start()]))
        out.append(m[0])
        at = m.end()
    out.append(TOKEN.sub(lambda t: t[0] if t[0] in keep else table.get(t[0], t[0]), text[at:]))
    return "".join(out)


ANTT_SKIP = re.compile(r"--(?= |$).*|\"[^\"\n]*\"", re.M)
RUST_SKIP = re.compile(r"//.*|b?\"(?:[^\"\\]|\\.)*\"")
OWN = [os.path.basename(p) for p in glob.glob("crates/*")]


def main():
    table, found = renamings()
    for old, new in sorted(table.items()):
        if new in found and new != old:
            print(f"falls together: {old} and {new}: {dict((k, sorted(v)[:2]) for k, v in found[new].items())}", file=sys.stderr)
    seen = collections.defaultdict(list)
    for old, new in table.items():
        seen[new].append(old)
    for new, olds in seen.items():
        if len(olds) > 1:
            print(f"falls together: {olds} as {new}", file=sys.stderr)
    if "--list" in sys.argv:
        for old, new in sorted(table.items()):
            print(old, new)
        return
    for p in antt():
        text = open(p, encoding="utf-8").read()
        said = turn(text, table, foreign(text), ANTT_SKIP)
        if said != text:
            open(p, "w", encoding="utf-8").write(said)
    for p in files("crates/*/src/**/*.rt"):
        text = open(p, encoding="utf-8").read()
        said = turn(text, table, foreign(text), RUST_SKIP)
        if said != text:
            open(p, "w", encoding="utf-8").write(said)
    for p in sorted(glob.glob("docs/*.md")) + ["README.md"]:
        text = open(p, encoding="utf-8").read()
        said = re.sub(r"`[^`\n]+`", lambda m: turn(m[0], table, set(), re.compile(r"(?!)")), text)
        if said != text:
            open(p, "w", encoding="utf-8").write(said)


if __name__ == "__main__":
    main()
