#!/usr/bin/env python3
"""Brings the repository's own names of definitions and lemmas to the spelling of today's Rattle.

usage: python3 tools/respell.py     at the top of a repository on which port.py has run

Words are in snake case: `isFree` becomes `is_free`, `not-both` becomes `not_both`. Types and modules keep their camel case.
Names of src/, of C, of the library, of what Rattle makes, strings, inputs and outputs keep their spelling. Where two names
would fall together, the definition of specs/ keeps the word and the lemma gets `_lem`; the few cases of another kind stand below.
It renames by text, and a second run renames what is new. It works in crates/, and says with --list what it would rename.
"""

import collections
import os
import re
import sys

# The first would fall together with a definition that stands in the same files; no file has the others beside the definitions of the same word.
OTHERWISE = {"other-kind": "of_other_kind", "all-open": "all_open", "in-front": "in_front", "is-orderly": "is_orderly", "one_more": "one_more"}
# Values that were spelled in capitals.
CAPITALS = {"S1": "s1", "S1-history": "s1_history"}
# Parameters of definitions.
PARAMETERS = {"mayAsk": "may_ask", "mayGrant": "may_grant", "refusedAs": "refused_as", "lawsOf": "laws_of", "holdsNothing": "holds_nothing", "goesOrRefuses": "goes_or_refuses"}

MODIFIERS = {"pub", "abbrev", "unfoldable", "data", "record", "ruleset", "instance", "syntax", "opaque"}
TOKEN = re.compile(r"[^\s(){}\[\].,;:\"@`|⟨⟩]+")
CAMEL = re.compile(r"(?<=[a-z0-9'₀-₉])(?=[A-Z])|(?<=[A-Z])(?=[A-Z][a-z])")


def snake(name):
    return re.sub("_+", "_", CAMEL.sub("_", name).replace("-", "_").lower())


def files(ending):
    for folder, inner, names in os.walk("crates"):
        inner[:] = sorted(d for d in inner if d != "out")
        for n in sorted(names):
            if n.endswith(ending):
                yield os.path.join(folder, n)


def read(path):
    with open(path, encoding="utf-8") as f:
        return f.read()


def is_walk(path):
    """A function's own proof: its names are those of goals, and stay."""
    return os.path.basename(path) in ("Proof.antt", "Answers.antt", "Invariants.antt")


def declared(path):
    """The names that a file declares, each with its kind."""
    inside = None
    for line in read(path).split("\n"):
        if line.startswith("--") or not line.strip():
            continue
        if line[0] != " ":
            words = line.split()
            before = []
            while words and words[0] in MODIFIERS:
                before.append(words.pop(0))
            inside = None
            if not words or words[0] in ("use", "mod", "unfolding", "where"):
                continue
            if "data" in before or "record" in before:
                inside = "constructor" if "data" in before else "field"
            elif "ruleset" in before or (len(words) > 1 and words[1] == ":"):
                yield words[0], "definition" if "/specs/" in path else "lemma"
        else:
            m = re.match(r"^ +(?:(?:pub|abbrev|unfoldable) )*([^ ()]+) : ", line)
            if m:
                yield m.group(1), inside or "local"


def code_of(text):
    return "\n".join("" if l.lstrip().startswith("--") else l for l in text.split("\n"))


def plan():
    kinds = collections.defaultdict(set)
    tokens = {}
    for path in files(".antt"):
        tokens[path] = set(TOKEN.findall(code_of(read(path))))
        if not is_walk(path):
            for name, kind in declared(path):
                kinds[name].add(kind)
    new = {}
    for name in kinds:
        if name in CAPITALS or name in OTHERWISE:
            new[name] = CAPITALS.get(name) or OTHERWISE[name]
        elif name[0].isalpha() and not name[0].isupper():
            new[name] = snake(name)
    new |= {p: n for p, n in PARAMETERS.items() if p not in kinds}
    alike = collections.defaultdict(list)
    for name in new:
        alike[new[name]].append(name)
    for word, names in alike.items():
        if len(names) < 2:
            continue
        # the definition of specs/ first, and of two the one that has the word already
        names.sort(key=lambda n: ("definition" not in kinds[n], n != word, n))
        for other in names[1:]:
            if other not in OTHERWISE and not kinds[other] <= {"field", "constructor"}:
                new[other] = word + "_lem"
    return {old: word for old, word in new.items() if old != word}


def respelled(text, new):
    return TOKEN.sub(lambda m: new.get(m.group(), m.group()), text)


def strings_apart(text, turn):
    """Turns all of a text but its strings."""
    return "".join(p if i % 2 else turn(p) for i, p in enumerate(re.split(r'("(?:[^"\\\n]|\\.)*")', text)))


def in_backticks(line, new):
    return re.sub(r"`[^`]*`", lambda m: respelled(m.group(), new), line)


def in_antt(text, new):
    return "\n".join(in_backticks(l, new) if l.lstrip().startswith("--") else strings_apart(l, lambda t: respelled(t, new)) for l in text.split("\n"))


def in_source(text, new):
    """In code only clauses have such names; of a comment only what stands in backticks."""
    turned = []
    for line in text.split("\n"):
        code, bar, said = line.partition("//")
        turned.append(strings_apart(code, lambda t: respelled(t, new)) + bar + in_backticks(said, new))
    return "\n".join(turned)


def in_edit(text, new):
    turned = []
    for line in text.split("\n"):
        if line.startswith(("old: ", "new: ")):
            turned.append(line[:5] + strings_apart(line[5:], lambda t: respelled(t, new)))
        else:
            turned.append(in_backticks(line, new))
    return "\n".join(turned)


def main():
    new = plan()
    if "--list" in sys.argv:
        for old, word in sorted(new.items()):
            print(old, word)
        return
    for ending, turn in ((".antt", in_antt), (".rt", in_source), (".edit", in_edit), ("README.md", lambda t, n: in_backticks(t, n))):
        for path in files(ending):
            before = read(path)
            after = turn(before, new)
            if after != before:
                with open(path, "w", encoding="utf-8") as f:
                    f.write(after)
    print(f"{len(new)} names respelled")


main()
