#!/usr/bin/env python3
"""Respells this repository's own definitions and lemmas as today's Rattle spells them: words in snake case, types and modules in
camel case, a dash only between two names (as of a function and its argument), a plain word added with an underscore.

usage: tools/respell.py [FOLDER] [--force] [--list]

Run once, after the kit's port.py. Functions of src/, exported names, strings, inputs and outputs keep their names. Proofs by position
(Proof.antt) have names of the kit's making, which stay; what they cite of the repository's own goes along. It stops, with nothing
written, where two names would fall together in one file, but with --force (the two that are left in task_calls are a step of a proof by
position beside the definition of its name). --list prints what was turned.
"""
import os
import re
import shutil
import sys

ROOT = sys.argv[1] if len(sys.argv) > 1 else "."
CRATES = os.path.join(ROOT, "crates")
WORD = r"[A-Za-z_][\w'₀-₉]*(?:-[\w'₀-₉]+)*"
TOKEN = re.compile(r"(?<![\w'₀-₉◌-])(" + WORD + r")(?![\w'₀-₉]|-[\w])")
SIGNATURE = re.compile(r"^\s*((?:(?:abbrev|unfoldable|pub|data|record|ruleset)\s+)*)([^\s(){}\[\],;:|]+)(?=\s*[({:]|\s+where|\s*=|\s*$)")
NOT_NAMES = set("use mod module where let in elim as open if then else λ".split())
# words that say how two things relate, and name nothing, whatever else is called so
PLAIN = set("""is of at by not in on to as so or and no it all any one two same other others none low high here there left right first last
than from for with without back out end ends on off up down twice once again apart alike only both it its itself still under over how
before after behind between step steps go goes keeps kept holds says said yes absent new old the a an own""".split())


def files(ending):
    for folder, dirs, names in os.walk(CRATES):
        dirs[:] = sorted(d for d in dirs if d not in ("out", ".git"))
        for f in sorted(names):
            if f.endswith(ending):
                yield os.path.join(folder, f)


def read(path):
    with open(path, encoding="utf-8") as f:
        return f.read()


def own_crates():
    return set(os.listdir(CRATES))


def snake(part):
    """One part between dashes; types, capitals and what is snake already stay."""
    if not part[:1].islower() or part.startswith("0x"):
        return part
    return re.sub(r"(?<=[a-z0-9'])([A-Z])(?![A-Z])", lambda m: "_" + m.group(1).lower(), part)


def kebab(claim):
    return re.sub(r"(?<=[a-z0-9])([A-Z])", r"-\1", claim).lower()


def defined(path, text):
    """The names that a file defines, with whether each is public and stands at its head."""
    for line in text.split("\n"):
        s = line.strip()
        if not s or s.startswith(("--", "use ", "mod ", "pub mod", "→", "{", "(", "}", "[", "∙")):
            continue
        if re.match(r"^\|\s", s):
            s = s[1:].strip()
        m = SIGNATURE.match(s)
        if not m or m.group(2) in NOT_NAMES:
            continue
        rest = s[m.end():].strip()
        if rest.startswith(":") or m.group(1).strip() or " : " in s:
            yield m.group(2), "pub" in m.group(1), len(line) - len(line.lstrip()) == 0


def imported(text):
    """The names that a file has from elsewhere: from the kit, and from this repository's own."""
    kit, own = set(), set()
    crates = own_crates()
    for m in re.finditer(r"^\s*(?:pub )?(?:ghost )?use ([\w.·'-]+)\.\{([^}]*)\}", text, re.M):
        parts = m.group(1).split(".")
        mine = parts[0] == "Rattle" and len(parts) > 1 and parts[1] in crates
        for n in m.group(2).split(","):
            (own if mine else kit).add(n.strip().split(" as ")[0])
    return kit, own


def kit_words():
    kit = os.path.join(os.path.dirname(os.path.dirname(os.path.realpath(shutil.which("rt")))), "rattle")
    words = set()
    for p in ("std/proofs/Common.antt", "std/specs/Prelude.antt"):
        path = os.path.join(kit, p)
        if os.path.exists(path):
            words |= set(re.findall(r"(?<![\w-])[a-z][a-z0-9_']*(?![\w-])", read(path)))
    return words


def main():
    antt = {p: read(p) for p in files(".antt")}
    rt = {p: read(p) for p in files(".rt")}
    mine, spec_names, where = set(), set(), {}
    for p, t in antt.items():
        if p.endswith("/Proof.antt"):
            continue
        for n, public, top in defined(p, t):
            mine.add(n)
            where.setdefault(n, set()).add(p)
            if "/specs/" in p and "-" not in n:
                spec_names.add(n)
    for t in rt.values():
        spec_names |= set(re.findall(r"\bfn (\w+)", t)) | set(re.findall(r"\b(?:struct|enum) (\w+)", t))
    claims = {kebab(n) for n in mine if n[:1].isupper()}
    names = (spec_names | {n for n in kit_words()}) - PLAIN

    def respelt(n):
        parts = n.split("-")
        if n in claims:
            return "_".join(parts)
        out = snake(parts[0])
        for a, b in zip(parts, parts[1:]):
            joint = "-" if (a in names or a[:1].isupper()) and (b in names or b[:1].isupper()) else "_"
            out += joint + snake(b)
        return out

    turn = {n: respelt(n) for n in mine if re.match(WORD + r"$", n) and n[:1].islower() and respelt(n) != n}
    # A lemma that would have its function's name gets '_lem'.
    def clashes():
        for p, t in list(antt.items()) + list(rt.items()):
            kit, own = imported(t)
            found = TOKEN.findall(re.sub(r"\.[\w'-]+", " ", t) if p.endswith("/Proof.antt") else t)
            new = {}
            for n in sorted(set(found)):
                target = turn.get(n, n) if n not in kit or n in own else n
                if target in new:
                    # a function of src/ may have the name of the definition that it computes
                    if not (p.endswith(".rt") and re.search(r"\bfn %s\b|\buse [\w:]+::(\w+, )*%s\b|\b%s\(" % (target, target, target), t)):
                        yield p, new[target], n, target
                new[target] = n

    for _ in range(3):
        for p, one, other, target in list(clashes()):
            lemma = [n for n in (one, other) if n in mine and not re.search("[A-Z]", n)]
            if len(lemma) == 1:
                turn[lemma[0]] = target + "_lem"
    bad = list(clashes())
    if bad:
        for b in bad:
            print("fall together: %s: %s and %s as %s" % b)
        if "--force" not in sys.argv:
            return 1

    def turned(text, kit, comment_dashes, by_position=False):
        def one(m):
            n = m.group(1)
            if n not in turn or n in kit:
                return n
            # the parts of a path, and in a proof by position the steps, have the names of functions
            if text[m.end():m.end() + 1] == "." and text[:m.start()].endswith(".") and "use " in text:
                return n
            if by_position and text[:m.start()].endswith(".") and not re.search("[A-Z]", n):
                return n
            if not comment_dashes and "-" in n and n.count("-") < 2 and not re.search("[A-Z]", n):
                return n
            return turn[n]
        return TOKEN.sub(one, text)

    count = 0
    for p, t in list(antt.items()) + list(rt.items()):
        kit, own = imported(t)
        kit -= own
        out = []
        code_rt = p.endswith(".rt")
        for line in t.split("\n"):
            mark = "//" if code_rt else "--"
            i = line.find(mark) if not code_rt or '"' not in line.split("//")[0] else -1
            if not code_rt and i > 0 and line[i - 1] not in " ":
                i = -1
            code, comment = (line, "") if i < 0 else (line[:i], line[i:])
            if code_rt:
                pieces = re.split(r'("(?:[^"\\]|\\.)*")', code)
                code = "".join(x if k % 2 else turned(x, kit, True) for k, x in enumerate(pieces))
            else:
                code = turned(code, kit, True, p.endswith("/Proof.antt"))
            out.append(code + turned(comment, kit, False))
        new = "\n".join(out)
        if new != t:
            count += 1
            with open(p, "w", encoding="utf-8") as f:
                f.write(new)
    if "--list" in sys.argv:
        for n in sorted(turn):
            print(n, turn[n])
    print("respelt: %d names, %d files" % (len(turn), count))
    return 0


if __name__ == "__main__":
    sys.exit(main())
