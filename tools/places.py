#!/usr/bin/env python3
"""Places in crates/*/src that today's forms of the language may say better.

usage: tools/places.py [-v] [FOLDER]    counts by point; -v lists each place
Points: 1 answers and refusals by hand, 2 functions that are nearly one another, 3 loops that count by hand,
4 comparisons, copies and conversions by hand, 5 parameters that travel together and clauses that are repeated,
6 parallel arrays, buffers with a length beside, lists searched by hand, 7 switches on which step to run.
"""
import difflib, glob, os, re, sys

verbose = "-v" in sys.argv
rest = [a for a in sys.argv[1:] if a != "-v"]
top = rest[0] if rest else os.path.join(os.path.dirname(os.path.abspath(__file__)), "..")
files = sorted(glob.glob(os.path.join(top, "crates", "*", "src", "**", "*.rt"), recursive=True))


def text_of(path):
    text = open(path, encoding="utf-8").read()
    return re.sub(r"//.*", "", text)


sources = {os.path.relpath(f, top): text_of(f) for f in files}


def without_tests(name, text):
    if name.endswith("/tests.rt"):
        return ""
    return text.split("#[cfg(test)]\nmod tests {")[0]


code = {n: without_tests(n, t) for n, t in sources.items()}

# name of a group, its point, and the pattern of a place
GROUPS = [
    ("1a let-else that hands None on", r"let Some\([^;{]*?\) =[^;{]*?else \{\s*return None;\s*\}"),
    ("1b Err matched only to be handed on in another", r"Err\(\w+\)(?: =>|\) = [^{;]*\{)[^;,}]*?(?:return )?(?:Err\(|complain)"),
    ("1c is_err with a return", r"\.is_err\(\) \{\s*return Err"),
    ("1d let-else that hands an Err on for a Result", r"let Ok\([^;{]*?\) =[^;{]*?else \{\s*return Err"),
    ("1e answers of calls that may refuse, as a bool", r"fn (?:open|open_frame)\([^)]*\)\s*-> bool"),
    ("1f number that stands for none", r"\b(?:frame|refusal) == 0\b|=> 0,\n\s*\}|_ => 0,"),
    ("1g let-else that says unreachable", r"else \{\s*unreachable\(\)"),
    ("3a while", r"\bwhile\b"),
    ("3b counter beside a for", r"\bat = at\.saturating_add\(1\)|\b\w+ = \w+\.saturating_add\(1\);"),
    ("3c for over places of a slice", r"for \w+ in \d+(?:u\w+)?\.\.[^{]*\{"),
    ("3d indexed by hand, element by element", r"\[\s*(?:\w+\[\d\],?\s*){4,}"),
    ("3e bytes of a word one by one", r"\[\s*(?:\w+\[(?:at|4 \* i)(?: \+ \d)?\],?\s*){4,}"),
    ("4a array copied from a slice", r"let mut \w+ = \[0(?:u8)?; \w+\];\s*\w+(?:\.copy_from_slice\(|\[0\.\.)"),
    ("4b text of a kind by a function", r"fn \w+\([^)]*\) -> &'static str"),
    ("4c impl Display", r"impl(?:<[^>]*>)? fmt::Display for"),
    ("4d From, TryFrom", r"impl(?:<[^>]*>)? (?:Try)?From<"),
    ("4e answers that only turn one enum into another", r"Some\(_\) => Ok\(true\)"),
    ("5a heap and given", r"heap: Global,\s*given: &\["),
    ("5b out and at", r"out: &mut \[u8\], at: usize"),
    ("5c id and number of a frame", r"id: &\[u8; 32\],(?: label: &\[u8\],)?\s*number: u32"),
    ("5d source, target, command, sealer or opener", r"(?:target: &mut (?:NewFile|Target),|source: &mut (?:File|Source),)\s*\w+: "),
    ("6a parallel arrays", r"\b[abcd]: \[u32; 128\]"),
    ("6b count or length beside lent bytes", r"count: usize,\s*(?:pub\(crate\) )?bytes: &'m \[u8\]"),
    ("6c sorted list searched by hand", r"fn place\("),
    ("7a match of a suite to its file or case", r"fn (?:file|case)\(self"),
]


def line(text, at):
    return text.count("\n", 0, at) + 1


def places(pattern):
    return [(n, line(t, m.start()), m.group(0).split("\n")[0].strip()) for n, t in code.items() for m in re.finditer(pattern, t)]


def functions():
    for name, text in code.items():
        for m in re.finditer(r"^\s*(?:pub(?:\(crate\))? )?fn (\w+)", text, re.M):
            depth, at = 0, text.find("\n{", m.end())
            one = re.search(r"\n\s*\{\n|[^\n]\{\n", text[m.end():])
            if not one:
                continue
            at = m.end() + one.end() - 2
            end = at
            while end < len(text):
                depth += {"{": 1, "}": -1}.get(text[end], 0)
                end += 1
                if depth == 0:
                    break
            body = text[at:end]
            words = re.findall(r"\w+|[^\w\s]", body)
            if len(words) >= 24:
                yield name, line(text, m.start()), m.group(1), words


def near():
    fs = list(functions())
    for i, a in enumerate(fs):
        for b in fs[i + 1:]:
            if min(len(a[3]), len(b[3])) * 1.5 < max(len(a[3]), len(b[3])):
                continue
            m = difflib.SequenceMatcher(None, a[3], b[3], autojunk=False)
            if m.quick_ratio() >= 0.8 and m.ratio() >= 0.8:
                yield a, b, m.ratio()


for title, pattern in GROUPS:
    found = places(pattern)
    print(f"{title}: {len(found)}")
    if verbose:
        for n, l, what in found:
            print(f"    {n}:{l}: {what}")
twins = list(near())
print(f"2a pairs of functions whose bodies agree by four fifths: {len(twins)}")
if verbose:
    for a, b, r in twins:
        print(f"    {a[0]}:{a[1]} {a[2]} ~ {b[0]}:{b[1]} {b[2]} {r:.2f}")
sized = places(r"fn \w+_(?:u16|u32|u64)\b|fn (?:regular|final)_\w+|fn \w+_(?:regular|final)(?:_\w+)?\b|fn word_at|fn nibble|fn complain|fn main\(|fn check_input|fn (?:array|copy)_32")
print(f"2b functions named for a size or a kind, or there twice: {len(sized)}")
if verbose:
    for n, l, what in sized:
        print(f"    {n}:{l}: {what}")
