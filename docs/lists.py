#!/usr/bin/env python3
"""Lists that are made of the sources, so that nobody keeps them by hand.

usage: docs/lists.py            writes docs/CRATES.md, of crates.txt and the first sentence of each root page, and the numbers of crates and
                                of lines to believe in the other documents
       docs/lists.py --check    says what of the documents doesn't fit the sources (status 1 where something doesn't): docs/CRATES.md, the
                                rows of docs/DEFINITIONS.md that name a file without that definition, crates that docs/PROVED.md
                                lacks, what it says they prove something by and they don't have, clauses that it quotes and that
                                stand otherwise in the sources or that it leaves out, the usage line of docs/COMMANDS.md, and the
                                numbers of crates and of lines to believe
       docs/lists.py NAME..     tells where a definition, a law or an item of this name stands
"""
import pathlib
import re
import subprocess
import sys

TOP = pathlib.Path(__file__).resolve().parent.parent
PAGE = TOP / "docs" / "CRATES.md"
SPECS = TOP / "crates" / "bridge_spec" / "specs"


def crates():
    """The headings of crates.txt, each with its crates and what they stand on."""
    groups = []
    for line in (TOP / "crates.txt").read_text(encoding="utf-8").splitlines():
        if line.startswith("# "):
            groups.append((line[2:].rstrip("."), []))
        elif line:
            name, _, below = line.partition(":")
            groups[-1][1].append((name.split()[0], below.split()))
    return [it for it in groups if it[1]]


def first_sentence(crate):
    for root in ("lib.rt", "main.rt"):
        page = TOP / "crates" / crate / "src" / root
        if page.exists():
            break
    words = []
    for line in page.read_text(encoding="utf-8").splitlines():
        if not line.startswith("//! "):
            break
        words.append(line[4:])
    text = " ".join(words)
    end = re.search(r"\.(?= [A-Z`]|$)", text)
    text = text[: end.start()] if end else text
    return text.replace("|", "\\|")


def below(name, on):
    """The crates, of the kit too, on which a crate stands."""
    found = set()
    for it in on.get(name, []):
        found |= {it} | below(it, on)
    return found


def counts():
    """All crates, and those of which the program is made."""
    on = {name: direct for _, listed in crates() for name, direct in listed}
    return set(on), (below("bridge_cli", on) | {"bridge_cli"}) & set(on)


def numbers():
    """The documents that name a number which the sources have: the words round it, and the number."""
    all_crates, of_program = counts()
    lines = subprocess.run([sys.executable, TOP / "docs" / "believed.py"], capture_output=True, text=True, check=True).stdout
    in_all = int(re.search(r"(\d+) in all", lines)[1])
    believed = f"{round(in_all, -2):,}"
    yield "README.md", r"(builds the program, of )(\d+)( crates)", str(len(of_program))
    yield "README.md", r"(proves and tests all )(\d+)( crates)", str(len(all_crates))
    yield "README.md", r"(lists all )(\d+)(;)", str(len(all_crates))
    yield "README.md", r"(that the contract reaches: some )([\d,]+)( lines)", believed
    yield "docs/SPEED.md", r"(the first build, )(\d+)( crates)", str(len(of_program))
    yield "docs/DEFINITIONS.md", r"(comments and imports: some )([\d,]+)(, crate by crate)", believed


def page():
    groups = crates()
    on = {name: direct for _, listed in groups for name, direct in listed}
    _, program = counts()
    lines = [
        "# Crates",
        "",
        "Made by docs/lists.py of crates.txt and the first sentence of each root page. What each crate proves stands in [PROVED.md](PROVED.md).",
        "",
        f"There are {len(on)} crates. The program is built and proved of {len(program)} of them, which are marked by a star. "
        "\"Stands on\" names what comes next below: not what that stands on itself, and no crate of the kit.",
    ]
    for heading, listed in groups:
        lines += ["", f"## {heading}", "", "| Crate | What it is | Stands on |", "|---|---|---|"]
        for name, direct in listed:
            own = [it for it in direct if it in on]
            nearest = [it for it in own if not any(it in below(other, on) for other in own if other != it)]
            star = "\\*" if name in program else ""
            lines.append(f"| `{name}`{star} | {first_sentence(name)} | {', '.join(f'`{it}`' for it in nearest) or '-'} |")
    return "\n".join(lines) + "\n"


def where(name):
    """The lines that define a name in specs/ and src/, or else those of a case or a field of this name."""
    word = re.escape(name)
    defined = {
        ("specs", "*.antt"): re.compile(rf"^(pub )?(abbrev|record|data|macro) (pub )?{word}(?![\w-])|^{word} :"),
        ("src", "*.rt"): re.compile(rf"^\s*(pub(\(crate\))? )?(fn|struct|enum|trait|const|type) {word}\b"),
    }
    within = {("specs", "*.antt"): re.compile(rf"^  (pub )?{word} :")}
    for looked in (defined, within):
        found = []
        for (folder, ending), form in looked.items():
            for file in sorted(TOP.glob(f"crates/*/{folder}/**/{ending}"), key=lambda it: ("_spec" not in str(it), str(it))):
                said = []
                for number, line in enumerate(file.read_text(encoding="utf-8").splitlines(), 1):
                    if form.search(line):
                        found.append(f"{file.relative_to(TOP)}:{number}: {' '.join(said) or line.strip()}")
                    text = line.strip()
                    said = [*said, text.lstrip("-/ ")] if text.startswith(("--", "//")) else []
        if found:
            return found
    return [f"{name}: no definition of this name"]


def has_item(crate, name):
    """Whether something in the sources of this crate has this name: a function, a type, a law, or a file of specs/."""
    if name.startswith("specs/"):
        here = TOP / "crates" / crate / name
        return here.is_dir() or here.with_suffix(".antt").exists()
    word = re.escape(name.rpartition("::")[2])
    in_code = rf"^\s*(pub(\(crate\))? )?(fn|struct|enum|trait|const|type) {word}\b|^impl {word} for"
    in_specs = rf"^(pub )?{word} :|^(abbrev pub|pub record|pub data) {word}(?![\w-])"
    form = re.compile(f"{in_code}|{in_specs}", re.M)
    files = [*(TOP / "crates" / crate / "src").rglob("*.rt"), *(TOP / "crates" / crate / "specs").rglob("*.antt")]
    return any(form.search(it.read_text(encoding="utf-8")) for it in files)


def unproved():
    """What docs/PROVED.md says and the sources don't."""
    proved = (TOP / "docs" / "PROVED.md").read_text(encoding="utf-8")
    for name in counts()[0]:
        if f"`{name}`" not in proved and not name.endswith("_tests"):
            yield f"docs/PROVED.md has no row of {name}"
    for line in re.findall(r"^- (`.*) \*By\* (.*)", proved, re.M):
        named = re.findall(r"`(\w+)`", line[0].partition(": ")[0])
        for name in re.findall(r"`([^`]+)`", line[1]):
            if not any(has_item(crate, name) for crate in named):
                yield f"docs/PROVED.md: {', '.join(named)} has no {name}"
    quoted = re.findall(r"^```antt\n(.*?)^```", proved, re.M | re.S)
    sources = {it: (SPECS / f"{it}.antt").read_text(encoding="utf-8") for it in ("Promises", "Headline", "Consequences", "Outputs", "Articles", "FileChecks")}
    for block in quoted:
        if not any(f"\n{block}" in it for it in sources.values()):
            yield f"docs/PROVED.md: this clause isn't so in the sources: {block.strip().splitlines()[0]}"
    for file, record in (("Promises", "Promise"), ("Headline", "Headline"), ("Consequences", "Consequences")):
        for field in re.findall(r"^  pub (\w+) :", sources[file].partition(f"pub record {record} (")[2], re.M):
            if not any(f"  pub {field} :" in it for it in quoted):
                yield f"docs/PROVED.md leaves out the clause {field} of {record}"


def unfitting():
    """What the documents say and the sources don't."""
    if not PAGE.exists() or PAGE.read_text(encoding="utf-8") != page():
        yield "docs/CRATES.md isn't the list of crates.txt and the root pages: run docs/lists.py"
    for line in (TOP / "docs" / "DEFINITIONS.md").read_text(encoding="utf-8").splitlines():
        cells = re.split(r"(?<!\\)\|", line)
        files = re.findall(r"`(crates/[^`]+)`", cells[2]) if line.startswith("| `") and len(cells) > 4 else []
        text = ""
        for file in files:
            here = TOP / file
            if not here.exists():
                yield f"docs/DEFINITIONS.md: there is no {file}"
            for it in here.rglob("*.*") if here.is_dir() else [here] * here.exists():
                text += it.read_text(encoding="utf-8", errors="replace") if it.is_file() else ""
        for name in re.findall(r"`([^`]+)`", cells[1]) if text else []:
            if not re.search(rf"(?<![\w-]){re.escape(name)}(?![\w-])", text):
                yield f"docs/DEFINITIONS.md: {name} isn't in {', '.join(files)}"
    yield from unproved()
    usage = re.search(r'codes\s+"(usage: .*)\\n"', (SPECS / "Texts.antt").read_text(encoding="utf-8"))[1]
    if f"\n{usage}\n" not in (TOP / "docs" / "COMMANDS.md").read_text(encoding="utf-8"):
        yield "docs/COMMANDS.md hasn't the usage line of crates/bridge_spec/specs/Texts.antt"
    for file, form, number in numbers():
        said = re.search(form, (TOP / file).read_text(encoding="utf-8"))
        if not said or said[2] != number:
            yield f"{file} says {said[0] if said else 'nothing like ' + form}, and it is {number}: run docs/lists.py"


def main(words):
    if not words:
        PAGE.write_text(page(), encoding="utf-8")
        for file, form, number in numbers():
            text = (TOP / file).read_text(encoding="utf-8")
            (TOP / file).write_text(re.sub(form, rf"\g<1>{number}\g<3>", text), encoding="utf-8")
    elif words == ["--check"]:
        found = list(unfitting())
        print("\n".join(found), end="\n" * bool(found))
        sys.exit(bool(found))
    elif words[0] in ("-h", "--help"):
        print(__doc__.strip())
    else:
        for name in words:
            print("\n".join(where(name)))


if __name__ == "__main__":
    main(sys.argv[1:])
