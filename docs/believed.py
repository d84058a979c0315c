#!/usr/bin/env python3
"""Lists the definitions that the contract of `bridge` reaches, and counts their lines, crate by crate.

    python3 docs/believed.py [--list]

Lines are counted without blank ones, comments and imports. It begins at what the contract names (`Promise`, `call`, `shelved`, `sunk`,
`form_in`) and follows each name to the definition that its file imports or holds, in the files of specs/ alone.
"""
import os, re, sys

ROOT = os.path.dirname(os.path.dirname(os.path.abspath(__file__)))
START = [("bridge_spec.specs.Promises", "Promise")] + [("bridge_spec.specs.Calls", it) for it in ("call", "shelved", "sunk", "form_in")]
HEAD = re.compile(r"^(?:abbrev |pub |record |data |syntax |infix\w* )*(?:pub )?(?:record |data )?([^\s:({]+)")


class File:
    """A file of definitions: the lines of each, what its imported names stand for, and whose each constructor is."""

    def __init__(self, path):
        self.blocks, self.names, self.modules, self.parts = {}, {}, {}, {}
        with open(path, encoding="utf-8") as it:
            lines = it.read().splitlines()
        name, nested = None, False
        for line in lines:
            text = line.strip()
            if not text or text.startswith("--"):
                continue
            if line.startswith(("use ", "pub use ")):
                self.note_use(line)
                continue
            if line.startswith("pub mod"):
                continue
            if not line.startswith(" "):
                nested = re.match(r"(?:abbrev )?mutual$|module ", line) is not None
            if nested:
                line = line[2:] if line.startswith("  ") else ""
            found = HEAD.match(line) if line and not line.startswith(" ") else None
            if found:
                name = found[1]
                self.blocks.setdefault(name, [])
            if name and line:
                self.blocks[name].append(line)
        for name, block in self.blocks.items():
            if re.search(r"\bdata\b", block[0]):
                for line in block[1:]:
                    part = re.match(r"\s+(?:pub )?([^\s:]+)\s*:", line)
                    if part:
                        self.parts.setdefault(part[1], name)

    def note_use(self, line):
        found = re.match(r"(?:pub )?use Rattle\.(\S+?)(?:\.\{(.*)\})?(?: as (\S+))?$", line)
        if not found:
            return
        module, names, other = found.groups()
        if names is None:
            self.modules[other or module.split(".")[-1]] = module
            return
        for name in names.split(", "):
            name, _, as_other = name.partition(" as ")
            self.names[(as_other or name).strip()] = (module, name.strip())


def module_of(path):
    return path[len(ROOT) + len("/crates/") : -len(".antt")].replace("/", ".")


def main():
    files = {}
    for at, _, names in os.walk(f"{ROOT}/crates"):
        if "/specs" in at and "/out" not in at:
            for name in names:
                if name.endswith(".antt") and name != "Lib.antt":
                    path = f"{at}/{name}"
                    files[module_of(path)] = File(path)
    seen, todo = set(), list(START)
    while todo:
        module, name = todo.pop()
        file = files.get(module)
        if file is None:
            continue
        name = file.parts.get(name, name) if name not in file.blocks else name
        if name not in file.blocks or (module, name) in seen:
            continue
        seen.add((module, name))
        for line in file.blocks[name]:
            for word in re.findall(r"[^\s(){}\[\],;λ→×]+", line):
                parts = word.split(".")
                for part in [*parts, f"◌{word}◌"]:
                    if part in file.names:
                        todo.append(file.names[part])
                    elif part in file.blocks or part in file.parts:
                        todo.append((module, part))
                if len(parts) > 1 and parts[0] in file.modules:
                    todo.append((file.modules[parts[0]], parts[1]))
                if len(parts) > 1 and parts[0] in file.names:
                    todo.append((file.names[parts[0]][0], parts[1]))
    count = {}
    for module, name in sorted(seen):
        crate = module.split(".")[0]
        lines = len(files[module].blocks[name])
        count[crate] = count.get(crate, 0) + lines
        if "--list" in sys.argv:
            print(f"{lines:5} {module} {name}")
    for crate in sorted(count):
        print(f"{count[crate]:5} {crate}")
    print(f"{sum(count.values()):5} in all, {len(seen)} definitions")


main()
