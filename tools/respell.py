#!/usr/bin/env python3
"""Respells the repository's own definitions and lemmas: words in snake case, types in upper camel case, ' for a prime.

usage: tools/respell.py          in the repository, once, after port.py: rewrites crates/*/specs, crates/*/proofs, crates/*/src and must-fail
       tools/respell.py --list   prints each old name with its new one

A name in camel case gets underscores. A dash becomes an underscore, but where it joins a type to a name. A lemma that would then have
a definition's or another lemma's name gets _lem. A name is respelled only in the files that declare it or import it from a crate of this
repository, so a name of std or of a local variable stays. It stops, and writes nothing, where two names of a module would fall together.
"""
import collections
import glob
import re
import sys

TOKEN = re.compile(r"[^\s(){}\[\];,.\"`⌜⌝]+")
# A declaration: its marks, its name, and a colon.
DECLARED = re.compile(r"^(\s*)((?:(?:pub|abbrev|unfoldable|record|data)\s+)*)([^\s:(){}\[\];,.=]+)(?=\s|$)[^=\n]*?:(?=\s|$)")
# Names that would fall together with a definition's and want another, by module.
APART = {
    ("Rattle.defs.specs.ListLaws", "no_cover"): "no_longest",
    ("Rattle.view.specs.Covered", "dataAt"): "data_place_at",
    ("Rattle.view.specs.Standing", "value_of"): "value_of_lem",
    ("Rattle.tidy.specs.Blank", "all_of"): "all_of_lem",
    ("Rattle.tidy.specs.Runs", "first_of"): "first_of_lem",
    ("Rattle.theory.specs.Walk", "head_of"): "head_of_lem",
    ("Rattle.pool.specs.Sound", "head_of"): "head_of_lem",
}
CRATES = [line.split(":")[0].split()[0] for line in open("crates.txt") if line.strip() and not line.startswith("#")]


def files():
    for p in sorted(glob.glob("crates/*/specs/**/*.antt", recursive=True) + glob.glob("crates/*/proofs/**/*.antt", recursive=True)):
        yield p


def module_of(path):
    crate, kind, rest = re.match(r"crates/(\w+)/(specs|proofs)/(.*)\.antt$", path).groups()
    return f"Rattle.{crate}.{kind}.{rest.replace('/', '.')}"


def is_shared(path):
    """specs/ and the lemma files of proofs/, whose names other files may cite."""
    return "/specs/" in path or path.split("/proofs/")[1].count("/") == 0


def declarations(text):
    """(name, marks, is a field) of each declaration in a file."""
    record = None
    for line in text.split("\n"):
        if line.strip().startswith("--") or not line.strip():
            continue
        depth = len(line) - len(line.lstrip())
        if record is not None and depth <= record:
            record = None
        m = DECLARED.match(line)
        if m and m.group(3) not in ("let", "in", "→", "module", "use", "open", "infixr", "infixl", "infix", "unfolding"):
            yield m.group(3), m.group(2).split(), record is not None
        if re.match(r"\s*(?:pub\s+)?(?:record|data)\s", line):
            record = depth


def snake(name):
    return re.sub(r"(?<=[a-z0-9])([A-Z])", lambda m: "_" + m.group(1).lower(), name)


def is_type(name):
    return name[:1].isupper()


def respelled(name):
    """The new spelling of a name."""
    if is_type(name) and "-" not in name:
        return name
    parts = [p if is_type(p) else snake(p) for p in name.split("-")]
    out = parts[0]
    for left, right in zip(parts, parts[1:]):
        out += ("-" if is_type(left) or is_type(right) else "_") + right
    return out.replace("′", "'")


def table():
    """old -> new, for all shared names; the fields among them; where each is declared; what falls together in a module."""
    declared = collections.defaultdict(list)
    fields, definitions = set(), set()
    for p in files():
        if not is_shared(p):
            continue
        for name, marks, field in declarations(open(p).read()):
            if (module_of(p), name) in APART:
                continue
            declared[name].append(p)
            if field:
                fields.add(name)
            if field or set(marks) & {"abbrev", "unfoldable", "record", "data"}:
                definitions.add(name)
    owners = collections.defaultdict(set)
    for name in declared:
        owners[respelled(name)].add(name)
    new = {}
    for b, group in owners.items():
        # a definition keeps the plain name, then a lemma that has it already
        first = sorted(group, key=lambda n: (n not in definitions, n != b, n))
        for i, name in enumerate(first):
            new[name] = b if i == 0 else b + "_lem" * i
    new = {a: b for a, b in new.items() if a != b}
    bad = []
    for b, group in owners.items():
        if sum(n in definitions for n in group) > 1 or len(group) > 2:
            bad.append(f"{', '.join(sorted(group))} would fall together as {b}")
    for p in files():
        if is_shared(p):
            seen = {}
            for name, _, _ in declarations(open(p).read()):
                b = APART.get((module_of(p), name), new.get(name, name))
                if seen.setdefault(b, name) != name:
                    bad.append(f"{p}: {seen[b]} and {name} would both be {b}")
    return new, fields, declared, bad


def imports(text):
    """name -> module, for the names that a file's use lines bring in, and the aliases of modules."""
    names, aliases = {}, {}
    for m in re.finditer(r"(?:ghost )?(?:pub )?use ([\w.+-]+?)(?:\.\{([^}]*)\}| as ([^\s;]+))?;?(?=\s|$)", text):
        module, listed, alias = m.groups()
        if listed is not None:
            for item in listed.split(","):
                parts = item.split()
                if len(parts) == 3:
                    names[parts[0]] = module
                    names[parts[2]] = "as"
                elif parts:
                    names[parts[0]] = module
        else:
            aliases[alias or module.split(".")[-1]] = module
    return names, aliases


def own(module):
    return module.startswith("Rattle.") and module.split(".")[1] in CRATES


def turned(path, text, new, fields, declared):
    """A file's text with its names respelled."""
    names, aliases = imports(text)
    here = {n for n, _, _ in declarations(text)} if path.endswith(".antt") else set()
    shared = path.endswith(".antt") and is_shared(path)

    def known(name):
        if name in names:
            return own(names[name])
        return shared and name in here and path in declared[name]

    out, at = [], 0
    for m in TOKEN.finditer(text):
        token = m.group(0)
        module = names.get(token) or (module_of(path) if token in here and shared else "")
        apart = APART.get((module, token))
        if token not in new and not apart:
            continue
        before = text[: m.start()]
        line = before[before.rfind("\n") + 1 :]
        if path.endswith(".rt") and not in_ghost(before):
            continue
        if before.endswith("."):
            head = re.search(r"([^\s(){}\[\];,.]+)\.$", before)
            alias = head.group(1) if head else ""
            ok = (alias in aliases and own(aliases[alias])) or token in fields
        else:
            ok = known(token) or (token in fields and ("record" in line or "{" in line or re.match(r"\s+$", line)))
        if ok or apart:
            out.append(text[at : m.start()] + (apart or new[token]))
            at = m.end()
    return "".join(out) + text[at:]


def in_ghost(before):
    """Whether a place of a .rt file lies in a clause or a ghost line."""
    start = max(before.rfind("ghost use"), before.rfind("requires"), before.rfind("ensures"), before.rfind("ghost "))
    if start < 0:
        return False
    part = before[start:]
    if part.startswith("ghost use"):
        return ";" not in part
    return part.count("{") > part.count("}")


def main():
    new, fields, declared, bad = table()
    if "--list" in sys.argv:
        for a in sorted(new):
            print(a, new[a])
        return 0
    if bad:
        print("\n".join(bad), file=sys.stderr)
        return 1
    changed = 0
    for p in list(files()) + sorted(glob.glob("crates/*/src/**/*.rt", recursive=True)):
        text = open(p).read()
        after = turned(p, text, new, fields, declared)
        if after != text:
            open(p, "w").write(after)
            changed += 1
    # a name with holes is used by its parts
    p = "crates/text/specs/Examples.antt"
    text = open(p).read()
    open(p, "w").write(text.replace("is-bad-at", "is_bad_at"))
    # an edit's texts stand in one file: that file's names
    for p in sorted(glob.glob("crates/*/must-fail/*.edit")):
        text = open(p).read()
        lines = [TOKEN.sub(lambda m: new.get(m.group(0), m.group(0)), l) if l.startswith(("old:", "new:")) else l for l in text.split("\n")]
        after = "\n".join(lines)
        if after != text:
            open(p, "w").write(after)
            changed += 1
    print(f"respell: {len(new)} names, {changed} files")
    return 0


if __name__ == "__main__":
    raise SystemExit(main())
