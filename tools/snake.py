#!/usr/bin/env python3
"""Spells the names of this repository's definitions, lemmas and fields in snake case, as the Rattle library does.

usage: tools/snake.py        at the top of the repository

Types and modules keep their capitals. A name that a library declares, one that Rattle makes (the goals of a function's proof)
and one whose new spelling is taken by another name stay as they are; a line `left:` says so. Names are turned in the
.antt files, in the clauses and `ghost use` lines of the .rt files, in must-fail edits and, within backticks, in comments
and in the pages. It may run again: what has its new spelling is left alone.
"""
import os
import re
import subprocess

SPACE = r"\s(){}.;,@\"«»`"
TOKEN = re.compile(rf"[^{SPACE}]+")
SIGNATURE = re.compile(rf"^\s*(?:(?:abbrev|unfoldable|pub)\s+)*([^{SPACE}:]+)(?:\s+\{{[^}}]*\}})*\s+:(?:\s|$)")
CONSTRUCTOR = SIGNATURE
MADE = re.compile(r"^(returns|loop-|Need-|overflow|bounds|nonzero|slice_bounds|the-invariant|the_invariant|enum[-_]told|κ)")
GHOST_USE = re.compile(r"\buse ([^\s;{]+)\.\{([^}]*)\}")


def files(*ends):
    names = subprocess.run(["git", "ls-files"], capture_output=True, text=True, check=True).stdout.split("\n")
    return [n for n in names if n.endswith(ends) and os.path.isfile(n)]


def snake(name):
    name = re.sub(r"(?<=[a-z0-9ℕ₀-₉])([A-Z])(?![A-Z])", lambda m: "_" + m[1].lower(), name)
    name = re.sub(r"(?<=[A-Z])([A-Z])(?=[a-z])", lambda m: "_" + m[1].lower(), name)
    return name.replace("-", "_").replace("′", "'")


def declared():
    own = {}
    for f in files(".antt"):
        with open(f, encoding="utf-8") as it:
            for line in it:
                if line.lstrip().startswith("--"):
                    continue
                m = SIGNATURE.match(line)
                if not m:
                    continue
                name = m[1]
                rest = line[m.end():]
                if re.match(r"\s*(tie|goal|\w*)\.Need-", rest) or re.match(r"\s*goal\.", rest) or MADE.match(name):
                    continue
                if not re.match(r"[a-z]", name) or any(c in name for c in "→≡◌_" if c != "_"):
                    continue
                own.setdefault(name, f)
    return own


def of_libraries():
    taken = set()
    for f in files(".antt", ".rt"):
        with open(f, encoding="utf-8") as it:
            text = it.read()
        for path, names in GHOST_USE.findall(text):
            steps = path.split(".")
            crate = steps[1] if steps[0] == "Rattle" and len(steps) > 1 else ""
            if os.path.isdir(os.path.join("crates", crate)) and crate:
                continue
            taken |= {n.strip() for n in names.split(",")}
    return taken


def rust_names():
    found = {}
    for f in files(".rt"):
        with open(f, encoding="utf-8") as it:
            for line in it:
                for m in re.finditer(r"\b(?:fn|const|mod|struct|enum) (\w+)|^\s+(?:pub )?(\w+): ", line):
                    found.setdefault(m[1] or m[2], f)
    return found


def turn_text(text, new):
    return TOKEN.sub(lambda m: new.get(m[0], m[0]), text)


def turn_ticks(text, new):
    return re.sub(r"`([^`\n]*)`", lambda m: "`" + turn_text(m[1], new) + "`", text)


def turn_antt(text, new):
    out = []
    for line in text.split("\n"):
        code, mark, comment = line.partition("--") if line.lstrip().startswith("--") else (line, "", "")
        out.append(turn_text(code, new) + mark + turn_ticks(comment, new))
    return "\n".join(out)


def turn_rt(text, new):
    """The clauses and `ghost use` items; of the rest, what stands in backticks in a comment."""
    out, depth, inside = [], 0, False
    for line in text.split("\n"):
        head = line.lstrip()
        if head.startswith("//"):
            out.append(turn_ticks(line, new))
            continue
        clause = re.match(r"(requires|ensures|ghost)\b", head)
        if clause and not inside:
            inside, depth = True, 0
        if inside:
            out.append(turn_text(line, new))
            depth += line.count("{") - line.count("}")
            ended = depth <= 0 and ("}" in line or ";" in line)
            inside = not ended
        else:
            out.append(line)
    return "\n".join(out)


def main():
    own, library, rust = declared(), of_libraries(), rust_names()
    groups, new = {}, {}
    for name in sorted(own):
        groups.setdefault(snake(name), []).append(name)
    for to, names in groups.items():
        # of a definition and its lemma, whose names differed in their spelling alone, the lemma is marked as one
        first = min(names, key=lambda n: ("-" in n, "_" in n, n))
        for name in names:
            spelled = to if name == first else to + "_lem"
            if name in library:
                if name != spelled:
                    print(f"left: {name} ({own[name]}): a library has it too")
            elif spelled in library or len(names) > 2 or (spelled != to and spelled in groups):
                print(f"left: {name} ({own[name]}): {spelled} is taken")
            elif spelled != name:
                new[name] = spelled
                if name != first:
                    print(f"look: {name} ({own[name]}) becomes {spelled}, since {first} has {to}")
                if spelled in rust:
                    print(f"look: {name} ({own[name]}) becomes {spelled}, which {rust[spelled]} has too")
    for f in files(".antt", ".rt", ".edit", ".md"):
        with open(f, encoding="utf-8") as it:
            text = it.read()
        turn = {".antt": turn_antt, ".rt": turn_rt, ".md": turn_ticks}.get(os.path.splitext(f)[1], turn_rt)
        turned = turn(text, new)
        if turned != text:
            with open(f, "w", encoding="utf-8") as it:
                it.write(turned)
    print(f"{len(new)} names turned")


if __name__ == "__main__":
    main()
