#!/usr/bin/env python3
"""Lists the definitions that the contract of the top call rests on, and names those that docs/DEFINITIONS.md lacks.

    docs/definitions.py            prints what the list lacks; ends with status 1 where it lacks any
    docs/definitions.py --all      prints every definition reached, crate by crate, with its module

It reads the text of the clauses of `classtest` and follows the names, module by module. Definitions of std and of the
kit's libraries are not followed. Modules below `specs/inside/` and declared types are left out.
"""
import pathlib, re, sys

root = pathlib.Path(__file__).resolve().parent.parent
crates = root / "crates"
HEAD = re.compile(r"^(?:abbrev pub|pub record|pub data|pub abbrev) +([^\s:(]+)", re.M)
USE = re.compile(r"use Rattle\.(\w+)\.specs\.([\w.]+?)\.\{([^}]*)\}")
USE_AS = re.compile(r"use Rattle\.(\w+)\.specs\.([\w.]+?) as (\w+)")
NAME = re.compile(r"[^\s(){};:,.=→×λ]+")


def imports(text):
    """The names that a text imports, each with its crate, module and name there."""
    found = {}
    for crate, module, names in USE.findall(text):
        for name in names.split(","):
            old, _, new = name.strip().partition(" as ")
            found[(new or old).strip()] = (crate, module, old.strip())
    return found


def definitions(path):
    """The definitions of a module: their names, and the text of each."""
    text = re.sub(r"--.*", "", path.read_text())
    heads = list(HEAD.finditer(text))
    return text, {h.group(1): text[h.start():(heads[i + 1].start() if i + 1 < len(heads) else len(text))]
                  for i, h in enumerate(heads)}


def module_path(crate, module):
    return crates / crate / "specs" / (module.replace(".", "/") + ".antt")


reached, modules = {}, {}


def follow(crate, module, name):
    if (crate, module, name) in reached or "declared" in module or module.startswith("inside"):
        return
    path = module_path(crate, module)
    if not path.exists():
        return
    if path not in modules:
        text, found = definitions(path)
        modules[path] = (imports(text), found)
    names, found = modules[path]
    if name not in found:
        return
    reached[(crate, module, name)] = True
    for word in NAME.findall(found[name]):
        if word in found:
            follow(crate, module, word)
        elif word in names:
            follow(*names[word])


top = (crates / "classtest/src/top.rt").read_text()
names = imports(top)
for word in NAME.findall(top[top.index("pub fn classtest"):]):
    if word in names:
        follow(*names[word])
if "--all" in sys.argv[1:]:
    for crate, module, name in sorted(reached):
        print(f"{crate:20} {module:20} {name}")
listed = set()
for span in re.findall(r"`([^`]+)`", (root / "docs/DEFINITIONS.md").read_text()):
    listed.update(NAME.findall(span))
lacking = sorted(key for key in reached if key[2] not in listed)
for crate, module, name in lacking:
    print(f"not listed: {name} ({crate}, {module})")
print(f"{len(reached)} definitions reached, {len(lacking)} not listed")
sys.exit(1 if lacking else 0)
