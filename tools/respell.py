#!/usr/bin/env python3
"""Turns this repository's own names to today's spelling, once, at the top, after the toolchain's port.py.

The crate `bytes` becomes `raw_bytes`, since the toolchain has a library of that name. A definition or lemma that is declared in specs/ or
proofs/ with a dash or a capital inside becomes snake case; functions, exported names and strings keep theirs. Where a lemma would take the
name of a definition it gets `_lem`: by itself where it had a dash, and by LEMMAS where port.py had given it its plain name.
"""
import os
import re
import sys

ROOT = os.path.dirname(os.path.dirname(os.path.abspath(__file__)))
CRATES = {"bytes": "raw_bytes"}
# Lemmas that have a plain name already, with the page that declares them.
LEMMAS = {
    "one_more": "acceptance/specs/When",
    "placed_row": "placing/specs/Laws",
    "is_digit": "period/specs/Dated",
    "rest_in": "period/specs/Elements",
    "text_in": "period/specs/Elements",
    "digits_from": "read_back/specs/Week",
    "room_of": "records/specs/Read",
    "in_order": "rooms/specs/Changed",
    "same_text": "records/specs/Order",
    "not_register": "staging/specs/Closing",
    "in_window": "joining/specs/Told",
    "no_kind": "hints/specs/Onward",
}
# Old names of std in the repository's own.
WORDS = {"getD": "get_or"}
TOKEN = re.compile(r"[^\s(){}\[\],;.@`\"λ⟨⟩⌜⌝∥:|]+")
DECLARED = re.compile(r"(?m)^(?P<indent> *)(?P<marks>(?:(?:abbrev|unfoldable|pub|data|record|module) )*)(?P<name>[^\s(){}\[\],;.:]+)(?P<rest>(?: [^:=\n]*(?:\([^\n=]*\))*)?) : ")


def snake(name):
    parts = [WORDS.get(p, p) for p in name.split("-")]
    out = []
    for p in parts:
        if p[:1].isupper():
            out.append(p)
            continue
        p = re.sub(r"([A-Za-z])(\d+[A-Z])", r"\1_\2", p)
        p = re.sub(r"([a-z₀-₉])([A-Z])", r"\1_\2", p)
        p = re.sub(r"([A-Z])([A-Z][a-z])", r"\1_\2", p)
        out.append(p.lower() if not p[:1].isupper() else p)
    return "_".join(out)


def odd(name):
    return ("-" in name.strip("-") and re.match(r"[A-Za-z]", name)) or re.match(r"[a-z_][\w₀-₉']*[A-Z]", name)


def files(root):
    for folder, dirs, names in os.walk(os.path.join(root, "crates")):
        dirs[:] = sorted(d for d in dirs if d != "out")
        for n in sorted(names):
            if n.endswith((".rt", ".antt", ".edit")):
                yield os.path.join(folder, n)


def pages(root):
    yield os.path.join(root, "README.md")
    for folder, dirs, names in os.walk(os.path.join(root, "docs")):
        for n in sorted(names):
            if n.endswith(".md"):
                yield os.path.join(folder, n)


def declared(text):
    for m in DECLARED.finditer(text):
        name = m.group("name")
        if name.startswith("--") or name in ("use", "where", "let", "in"):
            continue
        yield name, text[m.end():m.end() + 60]


def imported(text):
    """Names that a file has from the toolchain's library."""
    out = set()
    for m in re.finditer(r"use (Rattle\.std|mathlib|lib|Prim|native|borrow|Rattle\.core|seplogic|logic)[\w.]*\.\{([^}]*)\}", text):
        for w in m.group(2).split(","):
            out.add(w.strip().split(" as ")[0].strip())
    return out


def main():
    texts = {p: open(p, encoding="utf-8").read() for p in files(ROOT)}
    shared, private = {}, {}
    for p, t in texts.items():
        if not p.endswith(".antt"):
            continue
        for name, what in declared(t):
            if what.startswith(("tie.", "statement")) or not odd(name):
                continue
            if "/specs/" in p:
                shared[name] = snake(name)
            else:
                private.setdefault(p, {})[name] = snake(name)
    taken = {}
    problems = []
    for name, new in shared.items():
        taken.setdefault(new, []).append(name)
    shared["entries-same"] = "entries_same"
    plain = {name for p, t in texts.items() if p.endswith(".antt") and "/specs/" in p for name, _ in declared(t)}
    for new, names in list(taken.items()):
        laws = [n for n in names if "-" in n]
        if laws and (len(names) > 1 or new in plain or new in ("bit_or",)):
            for n in laws:
                shared[n] = new + "_lem"
            names = [n for n in names if n not in laws]
        if len(names) > 1:
            problems.append(f"fall together: {' '.join(names)} -> {new}")
    done = {}
    for p, t in texts.items():
        mine = dict(shared)
        for w, new in private.get(p, {}).items():
            mine[w] = new + "_lem" if new in set(TOKEN.findall(t)) else new
        for w in imported(t):
            mine.pop(w, None)
        tokens = set(TOKEN.findall(t))
        here = {w: mine[w] for w in tokens if w in mine}
        for w, page in LEMMAS.items():
            module = "Rattle." + page.replace("/", ".")
            if p.endswith(page + ".antt") or re.search(re.escape(module) + r"\.\{[^}]*(?<![\w-])" + w + r"(?![\w-])", t):
                here[w] = w + "_lem"
        for w, new in here.items():
            if new in tokens and not p.endswith(".edit"):
                problems.append(f"taken: {os.path.relpath(p, ROOT)}: {w} -> {new}")
        if p.endswith(".edit"):
            t = re.sub(r"(?<=[\w)₀-₉']) \.(?=\w)", ".", t)
            tokens = set(TOKEN.findall(t))
            here = {w: mine[w] for w in tokens if w in mine}
            for w in tokens:
                if odd(w) and w not in here and snake(w) in plain:
                    here[w] = snake(w)
        new_text = TOKEN.sub(lambda m: here.get(m.group(0), m.group(0)), t)
        for old, new in CRATES.items():
            new_text = re.sub(rf"\bRattle\.{old}\.", f"Rattle.{new}.", new_text)
            new_text = re.sub(rf"(?m)^((?:pub )?use ){old}::", rf"\1{new}::", new_text)
            new_text = re.sub(rf"(?<![:\w]){old}::put_", f"{new}::put_", new_text)
        done[p] = new_text
    if problems:
        print("\n".join(sorted(set(problems))))
        print(len(set(problems)), "problems")
        if "--anyway" not in sys.argv:
            return 1
    for p, t in done.items():
        if t != texts[p]:
            with open(p, "w", encoding="utf-8") as f:
                f.write(t)
    for p in pages(ROOT):
        with open(p, encoding="utf-8") as f:
            t = f.read()
        changed = re.sub(r"`[^`\n]+`", lambda q: TOKEN.sub(lambda m: shared.get(m.group(0)) or (snake(m.group(0)) if odd(m.group(0)) and snake(m.group(0)) in plain else m.group(0)), q.group(0)), t)
        changed = changed.replace("`bytes`", "`raw_bytes`").replace("crates/bytes/", "crates/raw_bytes/")
        if changed != t:
            with open(p, "w", encoding="utf-8") as f:
                f.write(changed)
    for old, new in CRATES.items():
        os.rename(os.path.join(ROOT, "crates", old), os.path.join(ROOT, "crates", new))
        path = os.path.join(ROOT, "crates.txt")
        with open(path) as f:
            t = f.read()
        t = re.sub(rf"(?m)\b{old}\b", new, t)
        with open(path, "w") as f:
            f.write(t)
    print(len(shared), "names")
    return 0


if __name__ == "__main__":
    raise SystemExit(main())
