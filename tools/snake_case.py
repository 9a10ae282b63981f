#!/usr/bin/env python3
"""Brings the repository's own names in specs/ and proofs/ to snake case.

Run once, at the top, right after the kit's port.py and before any edit by hand. A name that a file of
specs/ or proofs/ declares with dashes gets underscores, wherever it stands in contracts, definitions, proofs and
must-fail edits. A lemma that would then have the name of the public function whose contract it proves gets `_lem`,
and two constructors that would have the names of parameters get their parts in the other order.
A type with a dash becomes one word in camel case. In the answers of a function, names of goals and steps that the
checker makes from the source keep the source's underscores.
"""
import glob
import re
import sys

MARKS = ("pattern", "unfoldable", "abbrev", "pub", "axiom", "private")
TOKEN = re.compile(r"[A-Za-z_][A-Za-z0-9_']*(?:-[A-Za-z0-9_']+)+")
# Names that the checker makes: the first part of a goal, a step or a loop's fact.
MADE = re.compile(
    r"^(returns|invariant|loop|decreases|overflow|in|if|then|else|After|index|field|from-residual|items-in|row-in)(-|$)"
)
# Words of the checker's own that are of two parts.
WORDS = [
    ("in-default", "in_default"),
    ("in-err", "in_err"),
    ("in-ok", "in_ok"),
    ("from-residual", "from_residual"),
    ("invariant-of-result", "invariant_of-result"),
    ("overflow-mul", "overflow_mul"),
    ("overflow-add", "overflow_add"),
]
# Names that would fall together with a parameter of the source.
OTHERS = {"a-next": "next_a", "b-next": "next_b"}
LEMMAS = [
    "choice_laws",
    "sequence_laws",
    "loop_laws",
    "parallel_laws",
    "node_laws",
    "window_laws",
    "computed_laws",
    "standing_laws",
]


def files(*endings):
    found = []
    for ending in endings:
        found += glob.glob("crates/**/*" + ending, recursive=True)
    return sorted(f for f in found if "/out/" not in f)


def of_function(path):
    """Whether the file answers one function's goals."""
    parts = path.split("/")
    return parts[2] == "proofs" and len(parts) > 4


def declared(path):
    names = set()
    for line in open(path, encoding="utf-8"):
        head = line.strip()
        while head.split(" ")[0] in MARKS:
            head = head.split(" ", 1)[1] if " " in head else ""
        end = head.find(" :")
        if end > 0 and not re.search(r"[():{},;.=λ]", head[:end]):
            names |= {n for n in head[:end].split() if "-" in n}
        names |= {n for n in re.findall(r"let (\S+) [:=]", line) if "-" in n}
    return names


def own_names():
    names = set()
    for path in files(".antt"):
        found = declared(path)
        if of_function(path):
            found = {n for n in found if not MADE.match(n) and not n.endswith("-requires")}
        names |= found
    return {n for n in names if not n.startswith("_")}


def source_names():
    """The words with underscores in the sources, longest first, each with the dashed form that older goals had."""
    words = set()
    for path in files(".rt"):
        text = open(path, encoding="utf-8").read()
        words |= set(re.findall(r"[A-Za-z][A-Za-z0-9]*(?:_[A-Za-z0-9]+)+", text))
    return sorted(((w.replace("_", "-"), w) for w in words), key=lambda p: -len(p[0]))


def respelled(name):
    if name in OTHERS:
        return OTHERS[name]
    if name[0].isupper():
        return "".join(part[0].upper() + part[1:] for part in name.split("-"))
    return name.replace("-", "_")


def goal_name(name, sources):
    for old, new in WORDS:
        name = re.sub(r"(^|-)" + old + r"(?=-|$)", r"\g<1>" + new, name)
    for old, new in sources:
        name = re.sub(r"(?<![A-Za-z0-9_])" + old + r"(?![A-Za-z0-9_])", new, name)
    return name


def main():
    own = own_names()
    sources = source_names()
    taken = set(LEMMAS)

    for path in files(".antt", ".rt", ".edit"):
        text = open(path, encoding="utf-8").read()
        answers = of_function(path)

        def turn(match):
            name = match.group(0)
            after_dot = match.start() > 0 and text[match.start() - 1] == "."
            made = answers and (MADE.match(name) or after_dot) and (after_dot or match.start() == 0 or text[match.start() - 1] == "\n")
            if made and MADE.match(name):
                return goal_name(name, sources)
            if name in OTHERS and after_dot:
                return name.replace("-", "_")
            if name in own:
                return respelled(name)
            return goal_name(name, sources) if answers else name

        new = TOKEN.sub(turn, text)
        if path.endswith(".antt"):
            for lemma in taken:
                new = re.sub(r"(?<![\w.'-])" + lemma + r"(?![\w'-]|\.Goals)", lemma + "_lem", new)
        if new != text:
            open(path, "w", encoding="utf-8").write(new)
    print("\n".join(sorted(own)))
    return 0


if __name__ == "__main__":
    sys.exit(main())
