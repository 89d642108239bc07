#!/usr/bin/env python3
"""Turns a crate's proofs in the older form, Proof.antt over Tie, into Answers.antt and Invariants.antt.

usage: tools/port/answers.py CRATE..        at the top; `rt check` names what is left to mend

Each answer goes to the goal that Rattle now asks for in its place, by the names that `rt check --generated DIR --old-names` lists. A path
into the older nested context, c.before.before.step.field, becomes c.step.field. A goal that Rattle no longer asks for loses its answer.
"""
import json
import os
import re
import subprocess
import sys
import tempfile

NAME = r"[^\s(){}.;,@\"«»\[\]]+"


def read(path):
    with open(path, encoding="utf-8") as file:
        return file.read()


def names_of(crate):
    with tempfile.TemporaryDirectory() as folder:
        said = subprocess.run(["rt", "check", "--generated", folder, "--old-names"], cwd=os.path.join("crates", crate), capture_output=True, text=True)
        try:
            return json.loads(read(os.path.join(folder, "names.json")))
        except FileNotFoundError:
            print(said.stdout[-3000:], said.stderr[-3000:])
            raise SystemExit(f"{crate}: rattle wrote no names")


def blocks_of(text):
    """The comment at the head, the use lines, and each declaration with the comment above it."""
    uses, blocks, current = [], [], []
    head = re.match(r"(?:-- .*\n)*(?=use )", text)
    head = head[0] if head else ""
    text = text[len(head):]
    for line in text.split("\n"):
        if re.match(r"use ", line):
            uses.append(line)
        elif line[:1].isspace() and current:
            current.append(line)
        elif not line.strip():
            if current:
                current.append(line)
        else:
            name = re.match(rf"(?:(?:pub|abbrev|unfoldable) )*({NAME})", line)[1] if not line.startswith("--") else None
            same = current and name and any(re.match(rf"(?:(?:pub|abbrev|unfoldable) )*{re.escape(name)}(?![^\s:{{])", l) for l in current if not l.startswith("--"))
            open_comment = current and all(l.startswith("--") or not l.strip() for l in current)
            unfolding = line.startswith("unfolding") or (current and any(l.startswith("unfolding") for l in current) and len([l for l in current if l.strip() and not l.startswith(("--", "unfolding"))]) == 1 and same)
            if current and not (same or open_comment or unfolding):
                blocks.append("\n".join(current).rstrip())
                current = []
            current.append(line)
    if current:
        blocks.append("\n".join(current).rstrip())
    return head.split("\n")[:-1], uses, [b for b in blocks if b.strip()]


def plain(name):
    return re.sub(r"[-_]", "", re.sub(r"^(overflow|bounds|nonzero)[-_]", "", name)).lower()


class Function:
    def __init__(self, entry):
        self.needs = entry["needs"]
        self.at = dict(zip([n for _, n in self.needs], [a[0] for a in entry["asked_at"]]))
        self.places = {place[0]: (place[1], place[2]) for place in entry["places"]}
        self.steps = [tuple(place[2]) for place in entry["places"]]

    def goal(self, old):
        """Today's name of a goal."""
        for same in (lambda o, n: o == old, lambda o, n: plain(o) == plain(old), lambda o, n: plain(n) == plain(old)):
            for o, n in self.needs:
                if same(o, n):
                    return n
        return None

    def step(self, goal, old):
        """Today's name of a step before a goal: the nearest that had the older name."""
        place = self.at.get(goal)
        while place is not None and place in self.places:
            place, (was, now) = self.places[place]
            if was == old or plain(was) == plain(old):
                return now, self.arm(place)
        for place, (before, (was, now)) in self.places.items():
            if plain(was) == plain(old):
                return now, self.arm(before)
        return None, None

    def arm(self, place):
        """The arm of a match that the place is in."""
        while place is not None and place in self.places:
            place, (_, now) = self.places[place]
            if now.startswith("in"):
                return now
        return None


# what stands in every context
GIVEN = ("args", "requires", "ranges", "type_inv", "utf8", "fits", "well_formed")


def paths_turned(text, goal, function, missing):
    def path(match):
        step, rest = match[2], match[3] or ""
        if step in GIVEN:
            return "c." + step + rest
        new, arm = function.step(goal, step)
        if new is None:
            if match[1]:
                missing.add(step)
            new = step
        if new.startswith("if-not") and rest in (".true", ".false"):
            # a test of `!x` told of `not x`, and tells of `x` now
            missing.add("not")
            return f"(ap not c.{new}{rest})"
        if rest in (".given", ".given.1") and arm:
            return f"c.{arm}.is"
        if new.startswith("in_default") and re.match(r"\.rest(?=\.|$)", rest):
            return f"c.{new}.in_default-own{rest}"
        return "c." + new + re.sub(r"^\.(given\.1|keys\d*)$", ".is", rest)

    # what a match told of its value's numbers is known without a name now
    text = re.sub(r"search \(rules, c(?:\.before)*\.(?:known|enum)[_-]told\S*\.given\)", "search rules", text)
    return re.sub(rf"(?<![^\s(,;\[])c((?:\.before)*)\.({NAME})((?:\.{NAME})*)", path, text)


def loop_turned(body, entry, folder):
    """An invariant or a measure over today's record of variables."""
    match = re.match(rf"abbrev (?:pub )?(invariant|decreases)-({NAME}) :[^\n]*\n((?:unfolding[^\n]*\n)?)\1-\2((?: {NAME})*) =", body)
    if not match:
        print(f"{folder}: by hand: {body[:60]!r}")
        return body
    kind, old, args, rest = match[1], match[2], match[4].split(), body[match.end():]
    new, variables = None, []
    for (was, now), names in entry["loops"]:
        if plain(was) == plain(old):
            new, variables = now, names
    if new is None:
        print(f"{folder}: no loop {old}")
        return body
    if len(entry["loops"]) and len(args) < len(variables):
        print(f"{folder}: {old}: {args} for {variables}")
    head, tail = args[: len(variables)], args[len(variables):]
    spelled = {}
    for arg, variable in zip(head, variables):
        spelled[arg] = f"l.initial.{variable}" if arg.endswith("₀") else f"l.{variable}"
    changed = [v for a, v in zip(head, variables) if a.endswith("₀")]
    if len(changed) != len(tail):
        changed = [v for v in variables if v in tail]
    for arg, variable in zip(tail, changed):
        spelled[arg] = f"l.{variable}"
    spelled.pop("_", None)
    rest = re.sub(rf"(?<![^\s(,;\[])({NAME})(?=[\s.,;)\]}}]|$)", lambda m: spelled.get(m[1], m[1]), rest)
    return f"abbrev pub {kind}-{new} : goal.{kind}-{new}\n{match[3]}{kind}-{new} l ={rest}"


def turn(folder, text, entry):
    module = "Rattle." + ".".join(folder.split("/")[1:])
    function = Function(entry)
    head, uses, blocks = blocks_of(text)
    answers, invariants, helpers, missing, lost = [], [], [], set(), []
    for block in blocks:
        comment = "".join(l + "\n" for l in block.split("\n") if l.startswith("--"))
        body = "\n".join(l for l in block.split("\n") if not l.startswith("--")).strip("\n")
        if not body.strip():
            helpers.append((comment.rstrip(), ""))
            continue
        goal = re.match(rf"({NAME}) : tie\.Need-({NAME})((?: {NAME})*)", body)
        hypothesis = re.match(rf"abbrev (?:pub )?({NAME}) : tie\.({NAME})", body)
        if re.match(r"pub \S+-spec :|pub \S+_spec :", body):
            continue
        if goal:
            new = function.goal(goal[2])
            if new is None:
                lost.append(goal[2])
                continue
            lines = body.split("\n")
            lines[0] = f"pub {new} : goal.{new}"
            rest = "\n".join(lines)
            rest = re.sub(rf"(?m)^{re.escape(goal[1])}( c)( κs)?(?![^\s=])", rf"{new}\1", rest)
            answers.append((comment, new, rest))
        elif hypothesis:
            invariants.append((comment, hypothesis[1], hypothesis[2], body))
        else:
            helpers.append((comment, body))
    made = []
    for comment, new, rest in answers:
        made.append((comment + paths_turned(rest, new, function, missing)).rstrip())
    kept = [u for u in uses if not re.match(rf"use {re.escape(module)}\.(Statement|Tie|Goals)", u)]
    out = head + kept + [f"use {module}.Goals as goal", ""]
    shared = [(c + b).rstrip() for c, b in helpers if b.strip()]
    out += ["\n\n".join(shared + [m for m in made])]
    result = "\n".join(out).rstrip() + "\n"
    if "not" in missing:
        missing.discard("not")
        for name, home in (("ap", "Rattle.std.proofs.Common"), ("not", "Rattle.std.specs.Prelude")):
            if not re.search(rf"(?m)^use [^\n]*\{{(?:[^}}]*, )?{name}[,}}]", result):
                result = re.sub(r"(?m)^(use \S+\.Goals as goal)$", rf"use {home}.{{{name}}}\n\1", result, count=1)
    with open(os.path.join(folder, "Answers.antt"), "w", encoding="utf-8") as file:
        file.write(result)
    if invariants:
        with open(os.path.join(folder, "Invariants.antt"), "w", encoding="utf-8") as file:
            file.write("\n".join(kept + [f"use {module}.Given as goal", ""]) + "\n\n".join(comment + loop_turned(body, entry, folder) for comment, _, _, body in invariants) + "\n")
    if missing or lost:
        lost = [l for l in lost if not re.match(r"enum|same-length", l)]
        if missing or lost:
            print(f"{folder}: no step {sorted(missing)}; not asked {lost}")


def main(crates):
    for crate in crates:
        proofs = {}
        for at, _, files in os.walk(os.path.join("crates", crate, "proofs")):
            if "Proof.antt" in files:
                text = read(os.path.join(at, "Proof.antt"))
                if "tie.close" in text:
                    proofs[at] = text
                    os.remove(os.path.join(at, "Proof.antt"))
                else:
                    print(f"{at}: by hand")
        try:
            names = names_of(crate)
        except SystemExit:
            for at, text in proofs.items():
                with open(os.path.join(at, "Proof.antt"), "w", encoding="utf-8") as file:
                    file.write(text)
            raise
        for at, text in proofs.items():
            entry = names.get(f"Rattle-{crate}-proofs." + ".".join(at.split("/")[3:]) + ".Lts")
            if entry is None:
                print(f"{at}: no names")
            else:
                turn(at, text, entry)
    return 0


sys.exit(main(sys.argv[1:]))
