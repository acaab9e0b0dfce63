#!/usr/bin/env python3
"""Spells the definitions, lemmas, fields and local names of this repository's specs/, proofs/ and clauses as today's
Rattle does: types in upper camel case, all else in snake case. Run it once, at the top, on what the kit's port.py left.

  tools/respell.py [--list]     --list prints the names and changes nothing

Names that Rattle makes (goals, steps), names of a library, functions of src/ and texts of Rust code keep their spelling.
"""
import glob, os, re, sys

NAME = r"[^\s(){}.;,@\"«»λ:]+"
DECLARED = re.compile(r"(?m)^( *)((?:(?:abbrev|pub|unfoldable|data|record|\|) +)*)(" + NAME + r")((?: \{[^{}\n]*\}| \((?:[^()\n]|\([^()\n]*\))*\))*) :(?= )")
HYPHEN = re.compile(r"[\w'₀-₉]+(?:-[\w'₀-₉]+)+")
# The first words of names that Rattle makes of a function's steps, and of those that it makes of a loop.
MADE = re.compile(r"(returns|loop|if|then|else|in|overflow|index|invariant|decreases|out)(-|_|$)")


def texts():
    for pattern in ("crates/*/specs/**/*.antt", "crates/*/proofs/**/*.antt", "crates/*/src/**/*.rt"):
        yield from sorted(glob.glob(pattern, recursive=True))


def is_goals(path):
    """An Answers or Invariants file of a function, whose declared names are those that Rattle makes."""
    return "/proofs/" in path and "as goal" in open(path, encoding="utf-8").read()


def spell(name):
    if name[0].isupper():
        return "".join(part[:1].upper() + part[1:] for part in re.split("[-_]", name))
    return name.replace("-", "_")


def library(found):
    """Names that some file takes from a library: those stay."""
    names = set()
    for path in found:
        for where, items in re.findall(r"\buse ([^\s;{]+)\{([^}]*)\}", open(path, encoding="utf-8").read()):
            own = re.match(r"Rattle\.(\w+)\.", where)
            if own and os.path.isdir(os.path.join("crates", own[1])):
                continue
            names.update(re.split(r"[,\s]+", items))
    return names


def own_names():
    names, here = {}, {}
    for path in texts():
        if path.endswith(".rt"):
            continue
        text = open(path, encoding="utf-8").read()
        if not is_goals(path):
            for m in DECLARED.finditer(text):
                name = m.group(3)
                if spell(name) != name and ("-" in name or name[0].isupper() and "_" in name):
                    names[name] = spell(name)
        # names bound by a λ, a let or a parameter
        for m in re.finditer(r"(?:λ |let |\()(" + HYPHEN.pattern + r")(?=[ .:=])", text):
            here.setdefault(path, set()).add(m.group(1))
        for m in re.finditer(r" as (" + HYPHEN.pattern + r")(?=[,}])", text):
            here.setdefault(path, set()).add(m.group(1))
        for m in re.finditer(r"λ ((?:[\w'-]+ )*[\w'-]+)\.", text):
            here.setdefault(path, set()).update(w for w in m.group(1).split() if "-" in w)
        for m in re.finditer(r"\(((?:[\w'-]+ )+): ", text):
            here.setdefault(path, set()).update(w for w in m.group(1).split() if "-" in w)
    return names, here


def main():
    listing = "--list" in sys.argv
    found = list(texts())
    lib = library(found)
    names, here = own_names()
    fresh = {}
    for old, new in names.items():
        fresh.setdefault(new, set()).add(old)
    for new, olds in fresh.items():
        if len(olds) > 1:
            print("falls together:", new, sorted(olds))
    for old in sorted(names):
        if old in lib:
            print("a library has it too:", old)
    for path in found:
        text = open(path, encoding="utf-8").read()
        table = dict(names)
        for old in here.get(path, ()):
            if old not in lib:
                table.setdefault(old, spell(old))
        goals = is_goals(path)
        lines, depth = [], 0
        for line in text.split("\n"):
            ghost = True
            if path.endswith(".rt"):
                # a clause or a ghost item, up to the brace that ends it
                ghost = depth > 0 or re.match(r"\s*(pub )?(ghost|requires|ensures|#\[tactic)\b", line) is not None
                depth = max(0, depth + line.count("{") - line.count("}")) if ghost else 0
            if not ghost:
                if any(re.search(r"(?<![\w-])" + re.escape(o) + r"(?![\w-])", line) for o in names) and not line.strip().startswith("//"):
                    print("untouched:", path, line.strip())
                lines.append(line)
                continue
            code, dash, note = line, "", ""
            if path.endswith(".antt") and (m := re.search(r"(^|\s)--(\s|$)", line)):
                code, dash = line[: m.start()], line[m.start():]

            def turn(m):
                word, before = m.group(0), code[: m.start()]
                if goals and (MADE.match(word) or re.search(r"(goal|Goals)\.$", before)) and word not in names:
                    return word
                if goals and re.search(r"\bgoal\.$", before):
                    return word
                return table.get(word, word)

            code = re.sub(r"(?<![\w'₀-₉-])[\w'₀-₉]+(?:[-_][\w'₀-₉]+)+(?![\w'₀-₉-])", turn, code)
            if dash:
                dash = re.sub(r"`([^`]*)`", lambda m: "`" + re.sub(r"[\w']+(?:[-_][\w']+)+", lambda w: table.get(w.group(0), w.group(0)), m.group(1)) + "`", dash)
            lines.append(code + dash)
        new = "\n".join(lines)
        for old in set(re.findall(HYPHEN, text)) & set(table):
            to = table[old]
            if re.search(r"(?<![\w'-])" + re.escape(to) + r"(?![\w'-])", text):
                print("meets:", path, old, "->", to)
        left = {w for w in re.findall(HYPHEN, new)} - lib
        if listing:
            odd = sorted(w for w in left if not MADE.match(w)) if not goals else []
            if odd and path.endswith(".antt"):
                print("left:", path, odd)
        elif new != text:
            open(path, "w", encoding="utf-8").write(new)


main()
