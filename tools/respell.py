#!/usr/bin/env python3
"""Respells the repository's own definitions and lemmas: words in snake case, types in camel case.

usage: tools/respell.py [--list]      at the top of the repository, once, on what port.py left

A name is ours if a file of specs/ or proofs/ gives it a type. Names that Rattle makes (goals and the steps of a proof), names
of the library and names of src/ keep their spelling. A dash stays in a lemma behind one of the library's words, as in
length-filed, and behind a fact, as in All-filed. A fact that goes down a list is AllByRecursion, where port.py calls it All.
"""
import collections
import os
import re
import sys

ROOT = "crates"
# a definition: its marks, its name, its type
SIG = re.compile(r"^\s*((?:(?:abbrev|pub|unfoldable|data|record|ruleset)\s+)*)([^\s:(){},;|=λ→.⌜⌝]+)((?:\s+[({].*?[)}])*)\s*:\s+(.*)$")
KIND = re.compile(r"\b(data|record)\b")
TOKEN = re.compile(r"[^\s(){}\[\];,.⌜⌝⟦⟧`\"]+")
# words of the library before which a dash joins two names
WORDS = {"length", "drop", "get_or", "map", "filter", "All", "At", "sum", "replicate"}
# lemmas on the library's take and set: in our other names these are a call and a bit
LISTS = {"take-nil", "take-least", "take-set-in", "take-set_in", "take-update", "take-written", "set-numbered", "set-update"}


def files(endings):
    for folder, dirs, names in os.walk(ROOT):
        dirs[:] = sorted(d for d in dirs if d != "out")
        for name in sorted(names):
            if name.endswith(endings):
                yield os.path.join(folder, name)


def read(path):
    with open(path, encoding="utf-8") as f:
        return f.read()


def bare(text):
    """The text without comments."""
    return re.sub(r"(?m)--.*$", "", text)


def definitions():
    """Name -> the kinds of its definitions: 'type', 'word', 'lemma' or 'made'."""
    found = collections.defaultdict(set)
    for path in files((".antt",)):
        text = bare(read(path))
        answers = os.path.basename(path) in ("Answers.antt", "Invariants.antt", "Proof.antt")
        lines = text.split("\n")
        for i, line in enumerate(lines):
            m = SIG.match(line)
            if not m or re.match(r"\s*(use|λ|let|pub use)\b", line):
                continue
            marks, name, _, kind = m.groups()
            full = kind
            # a type that goes on over further lines
            for more in lines[i + 1:i + 4]:
                if re.match(r"\s+(→|×|where)", more):
                    full += " " + more.strip()
                else:
                    break
            if answers and re.match(r"(goal|given|need)\.", kind):
                found[name].add("made")
            elif KIND.search(marks) or re.search(r"(^|→ )Type 0\s*(where)?\s*$", full.strip()):
                found[name].add("type")
            elif "/specs/" in path:
                found[name].add("word")
            else:
                found[name].add("lemma")
    for path in files((".antt", ".rt")):
        text = bare(read(path))
        for m in re.finditer(r"(\S+) as ([A-Za-z][\w']*-[\w'-]+|[a-z][\w']*[A-Z][\w']*)", text):
            # of a type or a variant where that has a capital
            found[m[2]].add("alias" if re.match(r"[{(]?[A-Z]", m[1]) else "other word")
        if path.endswith(".antt"):
            for m in re.finditer(r"\blet ([a-z][\w']*-[\w'-]+)|[({]((?:[a-z][\w'-]* )+): |λ ((?:[a-z][\w'-]* ?)+)\.", text):
                for name in (m[1] or m[2] or m[3]).split():
                    if "-" in name:
                        found[name].add("local")
    return found


def theirs():
    """Names that files import from outside the repository."""
    ours = set(os.listdir(ROOT))
    names = set()
    for path in files((".antt", ".rt")):
        for m in re.finditer(r"\buse ([\w·'.+-]+?)\.\{([^}]*)\}", read(path)):
            parts = m[1].split(".")
            if parts[0] != "Rattle" or parts[1] not in ours:
                for it in m[2].split(","):
                    names.add(it.split(" as ")[0].strip())
    return names


def snake(name):
    name = re.sub(r"([a-z0-9])([A-Z])", lambda m: m[1] + "_" + m[2].lower(), name)
    return name.replace("-", "_")


def camel(name):
    return "".join(p[:1].upper() + p[1:] for p in re.split("[-_]", name))


def respelt(name, kinds):
    if kinds == {"alias"}:
        return camel(name) if name[:1].isupper() else snake(name)
    if kinds == {"other word"}:
        return snake(name[:1].lower() + name[1:])
    if "type" in kinds and (len(kinds) == 1 or name[:1].isupper()):
        return camel(name)
    head, dash, rest = name.partition("-")
    if dash and (head in WORDS or head[:1].isupper() or name in LISTS):
        return head + "-" + snake(rest)
    if name[:1].isupper():
        return name
    return snake(name)


def mapping():
    found, library = definitions(), theirs()
    out = {}
    for name, kinds in sorted(found.items()):
        if "made" in kinds and len(kinds) == 1:
            continue
        if name in library or not re.match(r"[A-Za-zℕ]", name) or "ℕ" in name:
            continue
        new = respelt(name, kinds - {"made"})
        if new != name:
            out[name] = new
    return found, library, out


def made_step(text, start):
    """Whether the token at start names a goal or a step of the code in what Rattle makes."""
    k = start
    while k and not re.match(r"[\s(){}\[\],;⟦⟧]", text[k - 1]):
        k -= 1
    return text[k:start] in ("c.", "l.", "w.", "goal.", "given.")


def main():
    found, library, out = mapping()
    tokens = collections.Counter()
    for path in files((".antt", ".rt")):
        tokens.update(TOKEN.findall(bare(read(path))))
    back = collections.defaultdict(list)
    for old, new in out.items():
        back[new].append(old)
    clash = [f"{new}: {', '.join(olds)}{' and one that stands' if new in found or new in library else ''}" for new, olds in sorted(back.items()) if len(olds) > 1 or new in found or new in library]
    if "--list" in sys.argv:
        for old, new in out.items():
            print(old, new, *sorted(found[old]))
        print("\nfall together:", *clash, sep="\n  ")
        used = [new for new in back if new in tokens and new not in found and new not in library]
        print("\nnew names that some file has already:", *used)
        return
    for path in files((".antt", ".rt")):
        text = read(path)

        def turn(m):
            name = m[0]
            if name not in out or made_step(text, m.start()):
                return name
            line = text[text.rfind("\n", 0, m.start()) + 1:m.start()]
            comment = "--" in line and path.endswith(".antt") or "//" in line and path.endswith(".rt")
            if comment and text[m.start() - 1] != "`":
                return name
            if "made" in found[name] and os.path.basename(path) in ("Answers.antt", "Invariants.antt"):
                return name
            return out[name]

        turned = TOKEN.sub(turn, text)
        if "AllByRecursion as All" in turned:
            turned = turned.replace("AllByRecursion as All", "AllByRecursion")
            turned = re.sub(r"(?<![\w'.·◌-])All(?![\w'-])", "AllByRecursion", turned)
        if turned != text:
            with open(path, "w", encoding="utf-8") as f:
                f.write(turned)


if __name__ == "__main__":
    main()
