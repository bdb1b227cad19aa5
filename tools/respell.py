#!/usr/bin/env python3
"""Brings the names that this repository's specs/ and proofs/ declare to one spelling: types in upper camel case, all else in
snake case. Run once at the top of the repository; it prints each name that it changes, and stops before it changes any where
two names would fall together.

Names of functions, of goals and of libraries are left as they are.
"""
import glob
import re
import sys

NAME = r"[^\s(){};:.,@«»]+"
SIGNATURE = re.compile(r"^\s*((?:(?:abbrev|unfoldable|pub|record|data)\s+)*)(" + NAME + r")((?:\s*\([^:\n]*:[^\n]*?\)|\s*\{[^\n]*?\})*)\s*:(?:\s(.*))?$", re.M)
LOCAL = re.compile(r"\blet\s+(" + NAME + r")\s*[:=]")
TOKEN = re.compile(NAME)
# A lemma that would come to its function's name.
APART = {"packed-number": "packed_number_lem"}
IMPORT = re.compile(r"^\s*(?:ghost |pub )*use\s+(\S+?)\.\{([^}]*)\}", re.M)


def snake(name):
    return re.sub(r"(?<=[a-z])([A-Z])", lambda m: "_" + m.group(1).lower(), name.replace("-", "_"))


def camel(name):
    return "".join(part[:1].upper() + part[1:] for part in name.split("-"))


def is_type(name, kind, rest):
    return name[:1].isupper() and ("record" in kind or "data" in kind or re.search(r"Type 0\s*(where)?\s*$", rest or "") is not None)


def files():
    for pattern in ("crates/*/specs/**/*.antt", "crates/*/proofs/**/*.antt", "crates/*/src/**/*.rt"):
        yield from sorted(glob.glob(pattern, recursive=True))


def main():
    texts = {path: open(path, encoding="utf-8").read() for path in files()}
    renamed, kept, foreign = {}, set(), set()
    for path, text in texts.items():
        for module, names in IMPORT.findall(text):
            own = re.match(r"Rattle\.(\w+)\.(specs|proofs)\b", module)
            if not own or own.group(1) == "std":
                foreign |= {word for part in names.split(",") for word in part.split()}
        if path.endswith(".rt"):
            continue
        for kind, name, _, rest in SIGNATURE.findall(text):
            if (rest or "").startswith("goal.") or (rest or "").startswith("Rattle."):
                continue
            new = APART[name] if name in APART else camel(name) if is_type(name, kind, rest) else snake(name) if not name[:1].isupper() else name
            if new == name:
                kept.add(name)
            else:
                renamed[name] = new
    clashes = [f"{old} and another are both {new}" for old, new in renamed.items() if new in kept | foreign or list(renamed.values()).count(new) > 1]
    clashes += [f"{old} is a library's too" for old in renamed if old in foreign]
    if clashes:
        sys.exit("\n".join(clashes))
    for path, text in texts.items():
        local = {} if path.endswith(".rt") else {name: snake(name) for name in LOCAL.findall(text) if snake(name) != name and name not in foreign}
        names = {**local, **renamed}

        def spelled(match):
            word = match.group(0)
            if word in renamed:
                return renamed[word]
            return word if match.start() and text[match.start() - 1] == "." else names.get(word, word)

        new = TOKEN.sub(spelled, text)
        if new != text:
            with open(path, "w", encoding="utf-8") as out:
                out.write(new)
    for old in sorted(renamed):
        print(old, renamed[old])


main()
