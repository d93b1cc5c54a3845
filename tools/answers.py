#!/usr/bin/env python3
"""Turns a crate's Proof.antt files, which close a tie, into Invariants.antt and Answers.antt.

usage: tools/answers.py CRATE NAMES   NAMES is what `rt check --generated DIR --old-names` writes, DIR/names.json

An answer that only searches goes: the check searches by itself. What the script cannot place it prints, a line each, and leaves as it was.
"""
import json
import os
import re
import sys

WORD = r"[^\s.(){}\[\],;]+"
PATH = r"(?<![^\s(){}\[\],;])(HEADS)((?:\.before)*)((?:\.WORD)*)".replace("WORD", WORD)
DECLARATION = re.compile(rf"^(?:abbrev |pub |unfoldable )*({WORD})\s*:\s(.*)$")


def flat(label):
    label = label.replace("_", "-")
    return label[:-4] if label.endswith("-lem") else label


class Function:
    """What the check says of a function's names: goals, steps, arms and loops, old and new."""

    def __init__(self, said):
        self.goals = {flat(old): new for old, new in said["needs"]}
        self.settled = {flat(it) for it in said["settled"]}
        self.steps, self.arms = {}, []
        for place in said["places"]:
            old, new = place[2]
            self.steps.setdefault(flat(old), new)
        for arm in said["arms"]:
            for field, step, path in arm[2] if arm else []:
                self.arms.append(((flat(step), *path), f"{arm[0]}.{field}"))
        self.arms.sort(key=lambda it: -len(it[0]))
        self.loops = {}
        for (names, variables), changed in zip(said["loops"], said["changed"]):
            self.loops[flat(names[0])] = (names[1], variables, changed)

    def path(self, parts):
        """A path from c, without its way back, in new names."""
        if parts[0] in ("args", "requires", "ranges", "utf8", "well_formed"):
            return ".".join(parts)
        key = (flat(parts[0]), *parts[1:])
        for arm, new in self.arms:
            if key[: len(arm)] == arm and len(arm) > 1:
                return ".".join([new, *parts[len(arm) :]])
        step = self.steps.get(flat(parts[0]))
        return ".".join([step, *parts[1:]]) if step else None


def paragraphs(text):
    """A file's declarations: runs of lines between blank lines."""
    return [p.split("\n") for p in re.split(r"\n\s*\n", text.strip("\n"))]


def turned(body, function, lost):
    """A body with its paths from c, and from the variables that stand for a place before it, in new names."""
    heads = {"c"} | set(re.findall(rf"let ({WORD}) = c(?:\.before)* in", body))

    def new(m):
        if not m.group(2) and not m.group(3):
            return m.group(0)
        parts = m.group(3)[1:].split(".")
        if parts == [""]:
            return m.group(1)
        path = function.path(parts)
        if path is None:
            lost.append(".".join([m.group(1), *parts]))
            return m.group(0)
        return f"{m.group(1)}.{path}"

    return re.sub(PATH.replace("HEADS", "|".join(sorted(map(re.escape, heads)))), new, body)


def substituted(body, values):
    return re.sub(rf"(?<![^\s(){{}}\[\],;])({WORD})", lambda m: values.get(m.group(1), m.group(1)), body)


def split(text, function, name):
    """The lines of Answers.antt and of Invariants.antt, and what was lost."""
    lost, uses, head, answers, invariants = [], [], [], [], []
    for lines in paragraphs(text):
        while lines and (lines[0].startswith("--") or lines[0].startswith("use ")):
            line = lines.pop(0)
            if line.startswith("use "):
                if not re.search(r"\.(Tie as tie|Statement\.\{statement\}|Reads as \S+|Lts as lts)$", line):
                    uses.append(line)
            elif not re.match(r"-- src/\S+:\d+:\d+$", line):
                head.append(line)
        if not lines:
            continue
        m = DECLARATION.match(lines[0])
        if not m:
            answers.append("\n".join(lines))
            continue
        label, kind = m.groups()
        if "tie.close" in "\n".join(lines) or label.endswith("-spec"):
            continue
        rest = "\n".join(lines[1:])
        if kind.startswith(("tie.invariant-", "tie.decreases-")):
            loop = re.match(r"tie\.(invariant|decreases)-(\S+)", kind)
            known = function.loops.get(flat(loop.group(2)))
            args, body = rest.split(" =", 1)
            if not known:
                lost.append(kind)
                continue
            new, variables, changed = known
            values, given = {}, args.split()[1:]
            for i, v in enumerate(given[: len(variables)]):
                values[v] = f"l.initial.{variables[i]}" if changed[i] else f"l.{variables[i]}"
            now = [v for v, c in zip(variables, changed) if c]
            for v, variable in zip(given[len(variables) :], now):
                values[v] = f"l.{variable}"
            goal = f"{loop.group(1)}-{new}"
            invariants.append(f"abbrev pub {goal} : goal.{goal}\n{goal} l ={substituted(body, values)}")
        elif kind.startswith("tie."):
            if re.search(r"= search rules$", rest) and "\n" not in rest:
                continue
            goal = function.goals.get(flat(label)) or function.goals.get(flat(re.sub(r"^tie\.Need-(overflow-|nonzero-)?", "", kind.split()[0])))
            if goal is None:
                if flat(label) not in {re.sub(r"^(overflow-|nonzero-)", "", s) for s in function.settled}:
                    lost.append(f"goal {label}")
                continue
            opened = [l for l in lines[1:] if l.startswith("unfolding ")]
            body = "\n".join(l for l in lines[1:] if not l.startswith("unfolding "))
            body = re.sub(rf"^{re.escape(label)}(?=\s)", goal, body)
            body = re.sub(r"^(\S+ (?:\S+ )*?c) κs =", r"\1 =", body)
            answers.append("\n".join([f"pub {goal} : goal.{goal}", *opened, turned(body, function, lost)]))
        else:
            answers.append(turned("\n".join(lines), function, lost))
    return head, uses, answers, invariants, lost


def main():
    crate, names = sys.argv[1:]
    said = json.load(open(names))
    for key, value in said.items():
        m = re.match(rf"Rattle-{crate}-proofs\.(.*)\.Lts$", key)
        if not m:
            continue
        folder = f"crates/{crate}/proofs/{m.group(1).replace('.', '/')}"
        proof = f"{folder}/Proof.antt"
        if not os.path.exists(proof) or "tie.close" not in open(proof).read():
            continue
        head, uses, answers, invariants, lost = split(open(proof).read(), Function(value), m.group(1))
        module = f"Rattle.{crate}.proofs.{m.group(1)}"
        for file, parts, goals in (("Invariants", invariants, "Given"), ("Answers", answers, "Goals")):
            if parts:
                with open(f"{folder}/{file}.antt", "w") as f:
                    top = [*head, *uses, f"use {module}.{goals} as goal"]
                    f.write("\n".join(top) + "\n\n" + "\n\n".join(parts) + "\n")
        os.remove(proof)
        for it in lost:
            print(f"left: {folder}: {it}")


if __name__ == "__main__":
    main()
