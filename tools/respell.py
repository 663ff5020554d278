#!/usr/bin/env python3
"""Brings the repository's own definitions, constructors, fields and lemmas to the spelling of today's Rattle: words in snake case.

usage: python3 tools/respell.py, once, at the top, after the kit's port.py. It goes by what each file declares and imports.
Functions of src/, exported names, strings, inputs and outputs are not touched; in comments and pages only code spans are.
"""
import collections
import os
import re
import sys

WORD = re.compile(r"[^\s(){}.;,@\"«»`\[\]\\]+")
HEAD = re.compile(r"^( *)((?:(?:pub|abbrev|unfoldable|private|opaque|data|record|mutual) +)*)([^\s():{}.;,=]+)( .*)?$")
NOT_HEADS = ("let", "in", "where", "use", "section", "module", "unfolding", "λ", "|", "record", "data", "elim")
USE = re.compile(r"^(?:ghost )?(?:pub )?use (Rattle\.[^\s{;]+?)\.?(?:\{(.*?)\})?(?: as (\S+?))?;?$", re.M)


def files(top):
    for folder, dirs, names in os.walk(os.path.join(top, "crates")):
        dirs[:] = sorted(d for d in dirs if d not in ("out", "data"))
        for name in sorted(names):
            if name.endswith((".antt", ".rt", ".edit")):
                yield os.path.join(folder, name)


def text_of(path):
    with open(path, encoding="utf-8", newline="") as f:
        return f.read()


def snake(name):
    if not name[0].isalpha() or name[0].isupper():
        return name
    return re.sub(r"(?<=[a-z0-9])[A-Z]", lambda m: "_" + m[0].lower(), name).replace("-", "_")


def module_of(path):
    parts = path.split(os.sep)
    at = parts.index("crates")
    crate, rest = parts[at + 1], parts[at + 2 :]
    rest[-1] = rest[-1][: -len(".antt")]
    return ".".join(["Rattle", crate] + rest)


def parameters(rest):
    """The words before the colon of a signature, None where there is none."""
    depth = 0
    for at, c in enumerate(rest):
        depth += (c in "({") - (c in ")}")
        if depth < 0 or c == "=":
            return None
        if c == ":" and depth == 0 and rest[at - 1] == " " and rest[at + 1 : at + 2] in ("", " "):
            return rest[:at].split()
    return None


def declared(text):
    """The names that a file declares, also in sections and where blocks, and the fields and constructors of its records and data."""
    tops, members, inside = set(), set(), None
    for line in text.splitlines():
        if not line.strip() or line.lstrip().startswith("--") or line.startswith(("use ", "pub use ")):
            continue
        indent = len(line) - len(line.lstrip(" "))
        if inside is not None and indent <= inside:
            inside = None
        head = HEAD.match(line)
        words = parameters(head[4] or "") if head else None
        if words is None or head[3] in NOT_HEADS:
            continue
        if inside is not None:
            members |= {head[3]} | set(w for w in words if re.fullmatch(WORD, w))
            continue
        tops.add(head[3])
        if re.search(r"\b(?:data|record)\b", head[2]) and line.rstrip().endswith("where"):
            inside = indent
    return tops, members


def table(top):
    kinds = collections.defaultdict(set)
    tops, fields, by_module = set(), set(), {}
    for path in files(top):
        if path.endswith(".antt"):
            a, b = declared(text_of(path))
            by_module[module_of(path)] = a | b
            tops |= a
            fields |= b
            for name in a | b:
                kinds[name].add("specs" if os.sep + "specs" + os.sep in path else "proofs")
    names = tops | fields
    rows, taken = {}, {}
    for name in sorted(names, key=lambda n: ("specs" not in kinds[n], n)):
        new = snake(name)
        while new in taken:
            new += "_lem"
        taken[new] = name
        if new != name:
            rows[name] = new
    return rows, fields, by_module


def visible(text, by_module, module):
    found = set(by_module.get(module, ()))
    aliases = set()
    for use in USE.finditer(text):
        path, leaves, alias = use[1], use[2], use[3]
        own = path.split(".")[1] in CRATES
        if not own:
            continue
        if leaves is None:
            found |= by_module.get(path, set()) if not alias else set()
            aliases.add(alias or path.split(".")[-1])
            continue
        for leaf in leaves.split(","):
            first, _, second = leaf.strip().partition(" as ")
            if first == "*":
                found |= by_module.get(path, set())
            elif second:
                aliases.add(second)
            else:
                found.add(first)
                aliases.add(first)
    return found, aliases


def turn_code(code, rows, fields, seen, aliases):
    out, at = [], 0
    for it in WORD.finditer(code):
        word = it[0]
        out.append(code[at : it.start()])
        at = it.end()
        if word in rows:
            behind = code[: it.start()]
            if behind.endswith("."):
                owner = re.search(r"([^\s(){}.;,]+)\.$", behind)
                if word in fields or (owner and owner[1] in aliases) or re.search(r"Rattle\.(?:%s)\.[\w.+]*\.$" % "|".join(CRATES), behind):
                    word = rows[word]
            elif word in seen or word in fields:
                word = rows[word]
        out.append(word)
    out.append(code[at:])
    return "".join(out)


def turn_spans(prose, rows):
    return re.sub(r"`[^`\n]+`", lambda m: WORD.sub(lambda w: rows.get(w[0], w[0]) if re.search(r"[a-z0-9][A-Z]|-", w[0]) else w[0], m[0]) if "/" not in m[0] and ".edit" not in m[0] else m[0], prose)


def turn(text, kind, rows, fields, seen, aliases):
    mark = "--" if kind == "antt" else "//"
    out = []
    for line in text.split("\n"):
        at = line.find(mark + " ") if kind == "rt" or line.lstrip().startswith("--") or " -- " in line else -1
        code, prose = (line, "") if at < 0 else (line[:at], line[at:])
        use = re.match(r"^((?:ghost )?(?:pub )?use )(Rattle\.(\w+)\.[^{;]*)(.*)$", code)
        if use and use[3] not in CRATES:
            out.append(line)
            continue
        if kind == "rt":
            parts = re.split(r'("(?:[^"\\]|\\.)*")', code)
            code = "".join(p if p.startswith('"') else turn_code(p, rows, fields, seen, aliases) for p in parts)
        else:
            code = turn_code(code, rows, fields, seen, aliases)
        out.append(code + turn_spans(prose, rows))
    return "\n".join(out)


def main():
    top = os.getcwd()
    global CRATES
    CRATES = set(os.listdir(os.path.join(top, "crates")))
    rows, fields, by_module = table(top)
    everything = set().union(*by_module.values())
    for path in list(files(top)):
        text = text_of(path)
        if path.endswith(".antt"):
            seen, aliases = visible(text, by_module, module_of(path))
            new = turn(text, "antt", rows, fields, seen, aliases)
        elif path.endswith(".rt"):
            seen, aliases = visible(text, by_module, None)
            new = turn(text, "rt", rows, {f for f in fields if re.search(r"[a-z0-9][A-Z]|-", f)}, {s for s in seen if re.search(r"[a-z0-9][A-Z]|-", s)}, aliases)
        else:
            new = turn(text, "rt", {k: v for k, v in rows.items() if re.search(r"[a-z0-9][A-Z]|-", k)}, fields, everything, set())
        if new != text:
            with open(path, "w", encoding="utf-8", newline="") as f:
                f.write(new)
    pages = ["README.md", "CONTRIBUTING.md"] + sorted("docs/" + f for f in os.listdir("docs") if f.endswith(".md"))
    for page in pages:
        text = text_of(page)
        new = turn_spans(text, rows)
        if new != text:
            with open(page, "w", encoding="utf-8", newline="") as f:
                f.write(new)
    for old, new in sorted(rows.items()):
        print(old, new)
    # names that fall together in one file
    for path in files(top):
        if path.endswith(".antt"):
            text = text_of(path)
            names = collections.Counter()
            for use in re.finditer(r"^(?:pub )?use (\S+?)\.?\{(.*?)\}", text, re.M):
                for leaf in use[2].split(","):
                    names[leaf.strip().split(" as ")[-1]] += 1
            a, b = declared(text)
            for name in a | b:
                names[name] += 1
            for name, n in names.items():
                if n > 1 and name:
                    print("look: falls together:", path, name, file=sys.stderr)


main()
