#!/usr/bin/env python3
"""Lists the places in crates/*/src that an older Rattle's forms leave behind, point by point.

usage: tools/places.py [--list] [COMMIT]     (without COMMIT: the files as they stand)

docs/DESIGN-PASS.md says what the points are and what became of each place.
"""
import collections
import re
import subprocess
import sys

args = [a for a in sys.argv[1:] if a != "--list"]
listing = "--list" in sys.argv
commit = args[0] if args else None


def run(*words):
    return subprocess.run(words, capture_output=True, text=True, check=True).stdout


def sources():
    if commit:
        names = run("git", "ls-tree", "-r", "--name-only", commit, "crates").split()
    else:
        names = run("git", "ls-files", "-co", "--exclude-standard", "crates").split()
    for name in sorted(names):
        if "/src/" in name and name.endswith(".rt"):
            yield name, (run("git", "show", f"{commit}:{name}") if commit else open(name).read())


files = dict(sources())


def lines(pattern):
    found = []
    for name, text in files.items():
        for number, line in enumerate(text.split("\n"), 1):
            if re.search(pattern, line):
                found.append(f"{name}:{number}: {line.strip()}")
    return found


def functions():
    """Each function: file, line, name, head (with its clauses), body."""
    for name, text in files.items():
        for m in re.finditer(r"^( *)(?:pub(?:\([a-z]+\))? )?(?:const )?fn (\w+)", text, re.M):
            end = text.find("\n" + m.group(1) + "}", m.end())
            stop = text.find(";\n", m.end())
            whole = text[m.start():]
            start = re.search(r"\n" + m.group(1) + r"\{\n|\) (-> [^\n{]*)?\{\n", whole)
            if not start or end < 0 or (0 <= stop < m.start() + start.start() and "ensures" in text[m.start():stop]):
                continue
            head = whole[:start.end()]
            body = text[m.start() + start.end():end]
            if "\nfn " not in head[1:] and "\n" + m.group(1) + "fn " not in head[1:]:
                yield name, text.count("\n", 0, m.start()) + 1, m.group(2), head, body


def same_but_for_a_type_or_a_number():
    groups = collections.defaultdict(list)
    for name, number, fn, head, body in functions():
        plain = re.sub(r"\b(u8|u16|u32|u64|u128|usize|Plus|Minus|numer|denom|\d[\d_]*|0x[0-9a-fA-F_]+)\b", "N", body)
        plain = re.sub(r"\b(two|four|eight|sixteen|infinity|nan|zero|quotient|remainder)\b", "N", plain)
        plain = re.sub(r"\s+", " ", plain).strip()
        if len(plain) > 12:
            groups[plain].append(f"{name}:{number}: fn {fn}")
    return [place for group in groups.values() if len(group) > 1 for place in group]


def repeated_clauses():
    clauses = collections.defaultdict(list)
    for name, text in files.items():
        for m in re.finditer(r"(?:requires|ensures)(?: \w+)? (\{.*\})$", text, re.M):
            clauses[m.group(1)].append(f"{name}:{text.count(chr(10), 0, m.start()) + 1}: {m.group(1)[:90]}")
    return [place for group in clauses.values() if len(group) > 2 for place in group]


def parameters_together():
    pairs = collections.defaultdict(list)
    for name, number, fn, head, body in functions():
        m = re.match(r"[^(]*\((.*?)\)\s*(->|\n|\{)", head[head.index("fn"):], re.S)
        words = re.findall(r"(\w+): ([^,]+)", m.group(1)) if m else []
        for i, a in enumerate(words):
            for b in words[i + 1:]:
                if "dyn" not in a[1]:
                    pairs[tuple(sorted((f"{a[0]}: {a[1].strip()}", f"{b[0]}: {b[1].strip()}")))].append(f"{name}:{number}: fn {fn}")
    return [f"{' and '.join(pair)}: {place}" for pair, group in sorted(pairs.items()) if len(group) > 2 for place in group]


POINTS = [
    ("1 own enums", lines(r"^\s*(pub(\([a-z]+\))? )?enum ")),
    ("1 numbers for kinds or refusals", lines(r"const \w+: u16 = 0x[0-9A-F]{4};|fn number\(self\) -> u8")),
    ("1 arms that unwrap or pass on by hand", lines(r"=> unreachable\(\)|Err\((error|fault)\) => (return )?Err\(")),
    ("1 a flag that says nothing", [f"{n}:{l}: fn {f}" for n, l, f, h, b in functions() if b.strip() == "true"]),
    ("2 functions that differ in a type or a number", same_but_for_a_type_or_a_number()),
    ("3 loops", lines(r"^\s*('[a-z]+: )?(while |loop \{|for .* in )")),
    ("4 by hand: order, copies, conversion, printing", lines(r"fn (compare|order|clone|eq|to_u64|from_u64|from_u16|to_u8|from_word|number|of_byte|sign_of_byte|\w*_word|\w*_word_of|\w+_at|from|fmt)(<[^>]*>)?\(|[/%] 256\) as u8")),
    ("5 clauses in three functions or more", repeated_clauses()),
    ("5 parameters in three functions or more", parameters_together()),
    ("5 taken, left and held of a sink", lines(r"\((S|text|groups)\.taken [a-z.]+\) \((S|text|groups)\.left")),
    ("6 a buffer with a length beside it", lines(r"(page|out|part|buffer): &('a )?mut \[u8\].*(at|used|count): |^\s*(pub )?buffer: &'a mut \[u8\],$|^\s*used: &mut usize,$|let mut filled|mut (page|scratch|chunk) = \[")),
    ("7 a switch on which step to run", lines(r"match (self|division|extent\.shape|measured\.extent\.shape|common\.compare.*|a\.compare.*|read_command.*|\(self\.state, digit\)|count|groups|kind) \{")),
]

for title, places in POINTS:
    print(f"{len(places):4}  {title}")
    if listing:
        for place in places:
            print(f"        {place}")
