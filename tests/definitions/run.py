#!/usr/bin/env python3
"""Checks that every definition a reader has to trust is explained, and lists these definitions on demand.

  tests/definitions/run.py            fails if such a definition has no comment
  tests/definitions/run.py --print    prints a page that lists them: each crate's definitions with their files and comments

A reader has to trust the definitions that clauses of public functions cite, those by which public types describe themselves (the
facts beside their public fields, and the value and view of a model), and every definition that these use in turn. A function is
public if lib.rt exports it, or the type or trait that it belongs to. All other definitions in specs/ serve proofs and private
functions only.

The last line that is printed is 'N passed, M failed'.
"""
import re
import sys
from collections import defaultdict
from pathlib import Path

TOP = Path(__file__).resolve().parents[2]
CRATES = TOP / "crates"
NAME = r"[^\s:(){}`,|]+"
WORD = re.compile(r"[A-Za-z_][\w'₀-₉]*(?:-[A-Za-z_][\w'₀-₉]*)*(?:\.[A-Za-z_][\w'₀-₉]*)*")


def uncommented(text, mark):
    return "\n".join(line.split(mark)[0] for line in text.split("\n"))


def imports(text):
    """Parses the `use` items of a text: the path that each name in scope stands for, and which names are re-exported."""
    names, handed = {}, []
    for found in re.finditer(r"(?m)^\s*(pub )?(?:ghost )?use (Rattle\.[^;\n{]+?)(?:\.?\{([^}]*)\})?(?: as ([\w◌]+))?;?\s*$", text):
        handed_on, path, several, alias = found.groups()
        path = path.rstrip(".").strip()
        if several is None:
            several, path = path.rsplit(".", 1)[1], path.rsplit(".", 1)[0]
            pairs = [(alias or several, several)]
        else:
            pairs = [tuple(reversed(w.split(" as "))) if " as " in w else (w, w) for w in map(str.strip, several.split(",")) if w]
        for here, there in pairs:
            names[here.strip()] = path + "." + there.strip()
            if handed_on:
                handed.append(here.strip())
    return names, handed


class Specs:
    """The definitions of every crate, with what each of them uses."""

    def __init__(self):
        self.items, self.inner, self.scopes, self.order = {}, {}, {}, []
        for path in sorted(CRATES.glob("*/specs/**/*.antt")):
            crate = path.relative_to(CRATES).parts[0]
            module = ".".join(path.relative_to(CRATES / crate / "specs").with_suffix("").parts)
            self.read(crate, module, path.read_text())

    def read(self, crate, module, text):
        key = f"Rattle.{crate}.specs.{module}"
        self.scopes[key] = imports(text)
        name, comment = None, []
        for line in text.split("\n"):
            head = re.match(r"(?:abbrev pub|abbrev|unfoldable pub|unfoldable|pub record|record|pub data|data|pub) (" + NAME + r")\s*[:({]", line)
            if line.startswith("--"):
                comment.append(line[2:].strip())
                continue
            if head:
                name = f"{key}.{head.group(1)}"
                if name not in self.items:
                    self.items[name] = {"crate": crate, "file": module.replace(".", "/") + ".antt", "name": head.group(1), "kind": head.group(0).replace("pub ", "").split()[0], "text": "", "words": " ".join(comment)}
                    self.order.append(name)
                comment = []
            if not line.strip():
                comment = []
            if name:
                self.items[name]["text"] += line.split(" --")[0] + "\n"
                inner = re.match(r"  ([\w'₀-₉-]+) :", line)
                if inner and self.items[name]["kind"] == "data":
                    self.inner.setdefault(f"{key}.{inner.group(1)}", name)

    def home(self, path, seen=()):
        """Returns the definition that a path names, following re-exports."""
        if path in self.items:
            return path
        if path in self.inner:
            return self.inner[path]
        module, _, name = path.rpartition(".")
        if path in seen:
            return None
        seen = (*seen, path)
        for scope in (module, ):
            if scope in self.scopes:
                names, handed = self.scopes[scope]
                if name in handed:
                    return self.home(names[name], seen)
        # A folder's Lib.antt may re-export a whole file: Rattle.c.specs.File.x, if Lib.antt contains `pub use .. File`.
        found = re.match(r"(Rattle\.\w+\.specs)\.(\w+)\.(.+)$", path)
        if found:
            names, handed = self.scopes.get(found.group(1) + ".Lib", ({}, []))
            if found.group(2) in handed:
                return self.home(names[found.group(2)] + "." + found.group(3), seen)
        return None

    def cited(self, text, names, own=None):
        """Returns the definitions that a text cites, by the names in its scope."""
        operators = [path for name, path in names.items() if "◌" in name and all(part in text for part in name.split("◌"))]
        if own:
            operators += [item for item in self.items if item.rpartition(".")[0] == own and "◌" in item and all(part in text for part in item.rpartition(own + ".")[2].split("◌"))]
        yield from filter(None, map(self.home, operators))
        for word in WORD.findall(text):
            first, _, rest = word.partition(".")
            if own and (found := self.home(f"{own}.{first}")):
                yield found
            elif first in names:
                path = names[first]
                found = self.home(path) or (rest and self.home(f"{path}.{rest.split('.')[0]}"))
                if found:
                    yield found

    def uses(self, item):
        key = item.rpartition(".")[0]
        return set(self.cited(self.items[item]["text"], self.scopes[key][0], key)) - {item}


def matching(text, at):
    depth = 0
    for i in range(at, len(text)):
        depth += {"{": 1, "}": -1}.get(text[i], 0)
        if depth == 0:
            return i + 1
    return len(text)


def clauses(text, at):
    """Returns the words of the clauses after a function's head, given the position of its name."""
    depth, found = 0, []
    while at < len(text):
        if text[at] in "(<[":
            depth += 1
        elif text[at] in ")]" or (text[at] == ">" and text[at - 1] not in "-="):
            depth -= 1
        elif depth == 0 and text[at] in "{;":
            return found
        elif depth == 0 and (clause := re.compile(r"\b(?:requires|ensures)\b[^{]*").match(text, at)):
            end = matching(text, clause.end())
            found.append(text[clause.end():end])
            at = end
            continue
        at += 1
    return found


def exported(crate):
    text = uncommented((CRATES / crate / "src" / "lib.rt").read_text(), "//")
    names, modules = set(), set(re.findall(r"(?m)^pub mod (\w+);", text))
    for found in re.finditer(r"pub use ([\w:]+?)(?:::\{([^}]*)\})?;", text):
        several = found.group(2) or found.group(1).rsplit("::", 1)[1]
        names |= {w.split(" as ")[0].strip() for w in several.split(",") if w.strip()}
    return names, modules


def public_words(crate):
    """Returns, for each file, the words of the clauses of public functions and types, and the names in scope."""
    names, modules = exported(crate)
    for path in sorted((CRATES / crate / "src").glob("**/*.rt")):
        parts = path.relative_to(CRATES / crate / "src").with_suffix("").parts
        if "tests" in parts or parts[-1] in ("lib", "main"):
            continue
        text = uncommented(path.read_text(), "//")
        whole = parts[0] in modules
        words = []
        blocks = []
        for head in re.finditer(r"(?m)^(?:unsafe )?(pub trait|impl)\b([^{]*)\{", text):
            blocks.append((head.start(), matching(text, head.end() - 1), head.group(1), head.group(2)))
        for fn in re.finditer(r"(?m)^( *)(pub )?(?:const )?(?:extern .C. )?fn (\w+)", text):
            block = next((b for b in blocks if b[0] < fn.start() < b[1]), None)
            if block is None:
                public = fn.group(2) and (whole or fn.group(3) in names)
            else:
                head = re.sub(r"^\s*<[^>]*(?:<[^>]*>[^>]*)*>", "", block[3]) if block[2] == "impl" else block[3]
                subject = head.split(" for ")[-1]
                owner = re.search(r"[A-Za-z_]\w*", subject.replace("&", "").replace("'_", ""))
                known = owner and (whole or owner.group(0) in names)
                public = known and (block[2] == "pub trait" or " for " in head or fn.group(2))
            if public:
                words += clauses(text, fn.end())
        for start, end, kind, head in blocks:
            subject = re.sub(r"^\s*<[^>]*(?:<[^>]*>[^>]*)*>", "", head).split(" for ")[-1]
            owner = re.search(r"[A-Za-z_]\w*", subject)
            if owner and (whole or owner.group(0) in names):
                for member in re.finditer(r"(?m)^    (?:pub )?ghost (\w+)\s*[=:] \{", text[start:end]):
                    if member.group(1) not in ("invariant", "coded", "inverse"):
                        at = start + member.end() - 1
                        words.append(text[at:matching(text, at)])
        for kind in re.finditer(r"(?m)^pub (?:struct|enum) (\w+)[^{;]*\{", text):
            if whole or kind.group(1) in names:
                body = text[kind.start():matching(text, kind.end() - 1)]
                for field in re.finditer(r"(?m)^    pub ghost \w+: \{", body):
                    words.append(body[field.end() - 1:matching(body, field.end() - 1)])
        yield path, imports(text)[0], words


def trusted(specs):
    """Returns every definition that a reader has to trust, and the sources that cite it first."""
    roots = defaultdict(set)
    for source in sorted(CRATES.glob("*/src/lib.rt")):
        for path, names, words in public_words(source.parts[-3]):
            for text in words:
                for item in specs.cited(text, names):
                    roots[item].add(path)
    found, open_ones = set(), list(roots)
    while open_ones:
        item = open_ones.pop()
        if item not in found:
            found.add(item)
            open_ones += specs.uses(item)
    return found, roots


def page(specs, found):
    """Returns the page of all definitions that a reader has to trust, with a table per crate."""
    by_crate = defaultdict(list)
    for item in specs.order:
        if item in found:
            by_crate[specs.items[item]["crate"]].append(specs.items[item])
    lines = ["# Definitions", ""]
    for crate, entries in by_crate.items():
        lines += [f"## `crates/{crate}/specs`", "", "| Definition | File | Meaning |", "|---|---|---|"]
        lines += [f"| `{it['name']}` | `{it['file']}` | {it['words'].replace('|', chr(92) + '|')} |" for it in entries] + [""]
    return "\n".join(lines)


def main():
    specs = Specs()
    found, _ = trusted(specs)
    if "--print" in sys.argv:
        print(page(specs, found))
        return 0
    silent = [it for it in specs.order if it in found and not specs.items[it]["words"]]
    for item in silent:
        print(f"FAILED: crates/{specs.items[item]['crate']}/specs/{specs.items[item]['file']}: {specs.items[item]['name']} has no comment")
    if not silent:
        print(f"ok: each of the {len(found)} definitions that a reader has to trust has a comment; {len(specs.order) - len(found)} others")
    print(f"{0 if silent else 1} passed, {len(silent)} failed")
    return 1 if silent else 0


if __name__ == "__main__":
    sys.exit(main())
