#!/usr/bin/env python3
"""Turns proofs by position (Proof.antt of an older kit) into answers by name: Answers.antt, and Invariants.antt where there is a loop.

usage: tools/answers.py NAMES ROOT [CRATE..]

NAMES is the names.json that `rt check --generated FOLDER --old-names` writes for a crate, or for one scratch crate that holds the sources
of many as its modules, without their contracts; then a crate need not be proved before the next one is turned. ROOT has crates/. An answer
that only searches goes away, since the check searches by itself. Each thing that is left to do by hand is printed, and has {-?-} where it
stands.
"""
import json
import os
import re
import sys

NAME = r"[A-Za-z][\w'₀-₉]*(?:-[\w'₀-₉]+)*"
FIELDS = r"(?:\.[\w'₀-₉]+(?:-[\w'₀-₉]+)*)+"
PATH = re.compile(r"(?<![\w'.₀-₉-])(" + NAME + r")(" + FIELDS + ")")
ALIAS = re.compile(r"let ([\w'₀-₉-]+) = ([A-Za-z][\w'₀-₉-]*)(" + FIELDS + r") in(\s*)")
OF_START = ("args", "requires", "ranges", "well-formed", "well_formed")
LEFT = " {-?-}"
left = []


def dashed(name):
    """Older proofs spell a name with a dash where the source has an underscore."""
    return name.replace("_", "-")


def alike(name):
    return re.sub("-lem$", "", dashed(name)).lower()


class Function:
    """What the kit says of a function: its places, each with the one before it and its step, and its goals, each by its old name."""

    def __init__(self, said):
        self.places, self.arms, self.loops, self.changed = said["places"], said["arms"], said["loops"], said["changed"]
        self.index = {dashed(place[0]): i for i, place in enumerate(self.places)}
        self.goals = {dashed(old): new for old, new in said["needs"]}
        self.place_of = {}
        for (old, _), (place, _) in zip(said["needs"], said["asked_at"]):
            if dashed(place) in self.index:
                self.place_of[dashed(old)] = self.index[dashed(place)]

    def chain(self, place):
        """The place and all before it, the nearest first."""
        found = []
        while place is not None:
            found.append(place)
            before = self.places[place][1]
            place = None if before is None else self.index[dashed(before)]
        return found

    def goal(self, old):
        for name in (old, re.sub("^overflow-", "", old)):
            if name in self.goals:
                return self.goals[name], self.place_of.get(name)
        return None, None

    def arm_field(self, chain, step, tail):
        """The name, in an arm of a match, of what old proofs cite below a step; and how many fields it stands for."""
        for place in chain:
            arm = self.arms[place] if place < len(self.arms) else None
            fits = [
                (len(path), field)
                for field, of, path in (entry[:3] for entry in (arm[2] if arm else []))
                if dashed(of) == dashed(step) and path and [str(part) for part in path] == tail[: len(path)]
            ]
            if fits:
                count, field = max(fits)
                return f"{arm[0]}.{field}", count
        return None, 0

    def resolve(self, goal_place, place, fields):
        """Where a path leads that starts at a place: ('place', number), ('path', text), or None. How many steps there are differs between
        kits, so a step is found by its name, the nearest to where the count leads."""
        chain = self.chain(goal_place)
        back = next((i for i, field in enumerate(fields) if field != "before"), len(fields))
        depth = (chain.index(place) if place in chain else 0) + back
        rest = fields[back:]
        if not rest:
            return "place", chain[min(depth, len(chain) - 1)]
        if rest[0] in OF_START:
            return "path", "c." + ".".join(rest).replace("well-formed", "well_formed")
        near = [(abs(i - depth), i) for i, at in enumerate(chain) if alike(self.places[at][2][0]) == alike(rest[0])]
        if not near:
            return None
        at = chain[min(near)[1]]
        (old, new), tail = self.places[at][2], rest[1:]
        field, count = self.arm_field(chain, old, tail)
        if field:
            return "path", ".".join(["c", field, *tail[count:]])
        renamed = dict(self.places[at][4] or [])
        if tail and tail[0] in renamed:
            tail = [renamed[tail[0]], *tail[1:]]
        unknown = LEFT if tail and (tail[0].startswith("keys") or tail[0] == "given") else ""
        return "path", ".".join(["c", new, *tail]) + unknown

    def turned(self, goal_place, body, where):
        """The body of an answer with its paths by name. A variable that stood for a place goes away."""
        places = {"c": goal_place}

        def one(found):
            head, fields = found[1], found[2][1:].split(".")
            if head not in places:
                return found[0]
            to = self.resolve(goal_place, places[head], fields)
            if to is None or to[0] == "place":
                left.append(f"{where}: {found[0]}")
                return found[0] + LEFT
            if to[1].endswith(LEFT):
                left.append(f"{where}: {found[0]} is {to[1]}")
            return to[1]

        out, done = "", 0
        for found in ALIAS.finditer(body):
            if found.start() < done:
                continue
            out += PATH.sub(one, body[done : found.start()])
            variable, head, fields = found[1], found[2], found[3][1:].split(".")
            to = self.resolve(goal_place, places[head], fields) if head in places else None
            places.pop(variable, None)
            if to and to[0] == "place":
                places[variable] = to[1]
                out += "" if out.endswith((" ", "\n")) else " "
            elif to:
                out += f"let {variable} = {to[1]} in{found[4]}"
            else:
                out += found[0]
            done = found.end()
        return out + PATH.sub(one, body[done:])

    def loop(self, old):
        """A loop by its old name: its new name, its variables, and which of them it changes."""
        for (names, variables), changed in zip(self.loops, self.changed):
            if dashed(names[0]) == dashed(old):
                return names[1], variables, changed
        return None, [], []


def declarations(text):
    """What stands before the first declaration, and each declaration, the comment above it as one of its own."""
    head, found = [], []
    for line in text.split("\n"):
        if re.match(r"(abbrev |pub |unfoldable )*[^\s:({-][^\s:]* :", line) and not line.startswith(("use", "mod")):
            found.append([line])
        elif not found:
            head.append(line)
        elif line.startswith(("--", "module ")):
            found.append([line])
        else:
            found[-1].append(line)
    return head, ["\n".join(lines).rstrip() for lines in found]


def clause(name, rest):
    """The arguments and the body of a declaration's one clause, and a line 'unfolding' before it."""
    unfolding = re.match(r"unfolding [^\n]*\n", rest)
    line = unfolding[0] if unfolding else ""
    found = re.match(rf"\s*{re.escape(name)} ([^=]*)=(.*)", rest[len(line) :], re.S)
    return (found[1].split(), found[2].rstrip(), line) if found else (None, None, line)


def invariant(function, kind, old, name, rest):
    """An invariant or a measure of a loop, over one record of the variables: l.x, and l.initial.x as the loop began."""
    loop, variables, changed = function.loop(old)
    arguments, body, _ = clause(name, rest)
    again = [variable for variable, changes in zip(variables, changed) if changes]
    if not loop or arguments is None or len(arguments) != len(variables) + len(again):
        return None
    to = {a: ("l.initial." if changes else "l.") + v for a, v, changes in zip(arguments, variables, changed)}
    to.update(zip(arguments[len(variables) :], ("l." + variable for variable in again)))
    word = re.compile(r"(?<![\w'.₀-₉-])(" + NAME + r")(?![\w'₀-₉-])")
    body = word.sub(lambda found: to.get(found[1], found[1]), body)
    return f"abbrev pub {kind}-{loop} : goal.{kind}-{loop}\n{kind}-{loop} l ={body}"


def turn(function, text, where):
    """The answers and the invariants of a file."""
    head, found = declarations(text)
    answers, invariants, comment = [], [], []
    for one in found:
        if one.startswith("--"):
            comment.append(one)
            continue
        said = re.match(r"(?:abbrev |pub |unfoldable )*([^\s:]+) : ([^\n]*)\n?(.*)", one, re.S)
        name, statement, rest = said.groups() if said else (None, "", "")
        loop = re.match(r"tie\.(invariant|decreases)-(\S+)$", statement)
        need = re.match(r"tie\.Need-(\S+)", statement)
        to, at = function.goal(dashed(need[1])) if need else (None, None)
        arguments, body, unfolding = clause(name, rest) if name else (None, None, "")
        if name and name.endswith(("-spec", "_spec")):
            pass
        elif loop and invariant(function, loop[1], loop[2], name, rest):
            invariants.append("\n".join([*comment, invariant(function, loop[1], loop[2], name, rest)]))
        elif to and at is not None and arguments in (["c"], ["c", "κs"]):
            if body.strip() != "search rules":
                turned = function.turned(at, body, f"{where}: {name}")
                answers.append("\n".join([*comment, f"pub {to} : goal.{to}", f"{unfolding}{to} c ={turned}"]))
        else:
            left.append(f"{where}: {name or one} stays as it is")
            answers.append("\n".join([*comment, one]))
        comment = []
    return head, answers, invariants


def used(name, body):
    name = name.split(" as ")[-1].strip()
    if "◌" in name:
        return all(part in body for part in name.split("◌") if part)
    return re.search(rf"(?<![\w'₀-₉-]){re.escape(name)}(?![\w'₀-₉-])", body) is not None


def write(folder, file, head, items, goals):
    if not items:
        return
    body, lines = "\n\n".join(items), [line for line in head if line.startswith("--")]
    for line in head:
        found = re.match(r"use ([^{]*)\.\{([^}]*)\}", line)
        if not line.startswith("use ") or re.search(r"\.(Statement|Tie|Lts)\b", line):
            continue
        names = [name.strip() for name in found[2].split(",") if used(name.strip(), body)] if found else []
        if names or not found:
            lines.append(f"use {found[1]}.{{{', '.join(names)}}}" if found else line)
    with open(os.path.join(folder, file), "w", encoding="utf-8") as out:
        out.write("\n".join([*lines, f"use {goals} as goal"]) + "\n\n" + body + "\n")


def main():
    if len(sys.argv) < 3:
        sys.exit(__doc__)
    with open(sys.argv[1], encoding="utf-8") as file:
        said = {key.split(".", 1)[1][: -len(".Lts")]: of for key, of in json.load(file).items() if key.endswith(".Lts")}
    count = 0
    for folder, _, files in os.walk(os.path.join(sys.argv[2], "crates")):
        if "Proof.antt" not in files or "/proofs/" not in folder:
            continue
        crate = folder.split("/crates/")[1].split("/")[0]
        function = folder.split("/proofs/")[1].replace("/", ".")
        of = said.get(f"{crate}.{function}", said.get(function))
        if sys.argv[3:] and crate not in sys.argv[3:]:
            continue
        if not of:
            left.append(f"{crate}.{function}: NAMES has no such function")
            continue
        path = os.path.join(folder, "Proof.antt")
        with open(path, encoding="utf-8") as file:
            head, answers, invariants = turn(Function(of), file.read(), f"{crate}.{function}")
        os.remove(path)
        write(folder, "Answers.antt", head, answers, f"Rattle.{crate}.proofs.{function}.Goals")
        write(folder, "Invariants.antt", head, invariants, f"Rattle.{crate}.proofs.{function}.Given")
        count += 1
    print(f"{count} turned", *left, sep="\n")


if __name__ == "__main__":
    main()
