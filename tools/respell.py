#!/usr/bin/env python3
"""respell.py: spells the repository's own definitions and lemmas as today's Rattle does, in snake case.

A name that a file of specs/ or proofs/ defines loses its dashes and middle dots to underscores (a dot at its end to an apostrophe), and a
lower camel name its capitals, in every .antt and .rt file and every must-fail edit. Names of the library, of goals, of functions, types, modules
and fields stay. It ran after the toolchain's port.py; `respell.py --dry` only tells what it would do, and which names would fall together."""
import glob
import re
import sys

TOKEN = re.compile(r"[^\s(){}\[\],;.:`«»\"]+")
DEFINED = re.compile(r"\s*(?:(?:abbrev|unfoldable|pub|record|data|ruleset) )*([^\s:(){}\[\]=]+)(?:\s+[a-zA-Zα-ω_']+)*(?:\s*[({][^=]*[)}])?\s*(?::\s|:$|=)")
# several constructors of one type
TOGETHER = re.compile(r"\s+((?:[^\s:(){}\[\]=]+ )+): ")
# what a function's proof answers
ANSWERS = re.compile(r"/proofs/.+/(Answers|Invariants)\.antt$")
ALIAS = re.compile(r"\bas ([^\s(){},;]+)")
GOAL = re.compile(r"^(returns|loop|value|again|μ|Inv)(-|$)")
# a name of the library's stands in the way
OTHERWISE = {"nan-bits": "nan_bits_lem", "is-nan": "is_the_nan"}


def files():
    return sorted(p for p in glob.glob("crates/*/**/*", recursive=True) if p.endswith((".antt", ".rt", ".edit")) and "/out/" not in p)


def own_crates():
    return {p.split("/")[1] for p in glob.glob("crates/*/src")}


def defined():
    names = set()
    for path in files():
        if not path.endswith(".antt") or ANSWERS.search(path):
            continue
        proof = path.endswith("/Proof.antt")
        for line in open(path, encoding="utf-8"):
            if line.lstrip().startswith("--"):
                continue
            found = ALIAS.findall(line)
            if not re.match(r"\s*(pub )?use ", line):
                found += DEFINED.findall(line)[:1] + " ".join(TOGETHER.findall(line)[:1]).split()
            names.update(n for n in found if not (proof and GOAL.match(n)))
    return names


def respelled(name):
    if name in OTHERWISE:
        return OTHERWISE[name]
    name = re.sub(r"[-·]", "_", re.sub(r"·$", "'", name))
    if re.match(r"[a-z]+[A-Z]", name):
        name = re.sub(r"([a-z])([A-Z])", lambda m: m.group(1) + "_" + m.group(2).lower(), name)
    return name


def uses_of_others(crates):
    """The names that a `use` line takes from the library."""
    taken = {}
    for path in files():
        text = open(path, encoding="utf-8").read()
        for module, names in re.findall(r"\buse ([^\s{};]+)\.\{([^}]*)\}", text):
            if module.split(".")[0] == "Rattle" and module.split(".")[1] in crates:
                continue
            for n in names.split(","):
                taken.setdefault(n.split(" as ")[0].strip(), set()).add(path)
    return taken


def main(dry):
    names = {n: respelled(n) for n in defined() if re.search(r"[a-z0-9A-Z]", n) and respelled(n) != n and "◌" not in n}
    foreign = uses_of_others(own_crates())
    for n in sorted(set(names) & set(foreign)):
        print("stays, since the library has it:", n, sorted(foreign[n])[0])
        del names[n]
    back = {}
    for n, m in names.items():
        back.setdefault(m, []).append(n)
    for m, ns in sorted(back.items()):
        if len(ns) > 1:
            print("fall together:", m, ns)
    changed = 0
    for path in files():
        text = open(path, encoding="utf-8").read()
        bare = {m.group() for m in TOKEN.finditer(re.sub(r"--.*|//.*", "", text)) if text[m.start() - 1 : m.start()] != "."}
        for n in sorted(bare & set(names)):
            if names[n] in bare and path.endswith(".antt") and dry:
                print("look:", path, n, names[n])
        if path.endswith(".rt"):
            for fn in re.finditer(r"fn (\w+)\((.*?)\)(.*?)\n\s*\{\n", text, re.S):
                params = set(re.findall(r"(\w+):", fn.group(2)))
                for clause in re.findall(r"(?:requires|ensures)[^{]*\{(.*?)\}\n", fn.group(3) + "\n", re.S):
                    for t in TOKEN.findall(clause):
                        if t in names and names[t] in params:
                            print("hidden by a parameter:", path, fn.group(1), t)
        new = TOKEN.sub(lambda m: names.get(m.group(), m.group()), text)
        if new != text:
            changed += 1
            if not dry:
                open(path, "w", encoding="utf-8").write(new)
    print(f"respell: {len(names)} names in {changed} files")
    return names


if __name__ == "__main__":
    names = main("--dry" in sys.argv)
    if "-v" in sys.argv:
        print("\n".join(f"{a} {b}" for a, b in sorted(names.items())))
