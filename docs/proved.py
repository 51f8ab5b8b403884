#!/usr/bin/env python3
"""Makes docs/PROVED.md: the page docs/promises.md, and then each crate's public calls with their clauses, read from the sources.

    docs/proved.py            writes the file, the table of standards in docs/FORMATS.md, and the tables of crates in docs/ARCHITECTURE.md
    docs/proved.py --check    says which of them is stale, and then has status 1
"""
import itertools
import pathlib
import re
import sys

TOP = pathlib.Path(__file__).resolve().parent.parent
CRATES = TOP / "crates"
# A clause up to so many characters is shown as it is.
SHORT = 100
# Relations that stand in many clauses, and say what a clause is about only where no other does.
GENERAL = {"Knows", "Only", "Rose", "Stands", "StandsFor"}
WORD = re.compile(r"[A-Za-z_][A-Za-z0-9_']*(?:-[A-Za-z0-9_']+)*")
CITED = re.compile(r"(RFC \d+|FIPS \d+(?:-\d+)?|SP 800-\d+[A-Z]?)((?: (?:sections?|appendix) (?:[\d.]*\d|[A-Z])(?:(?:, | and | to )[\d.]*\d)*)?)")


def uses():
    """Which libraries each crate names, by crate."""
    lines = (line.split("#")[0].strip() for line in (TOP / "crates.txt").read_text().splitlines())
    return {name: rest.split() for name, _, rest in (line.partition(":") for line in lines if line)}


def from_the_lowest(below):
    """All crates, each after those that it names."""
    order = []

    def visit(name):
        if name in below and name not in order:
            for one in sorted(below[name]):
                visit(one)
            order.append(name)

    for name in sorted(below):
        visit(name)
    return order


def sentence(text):
    """The first sentence of a text."""
    found = re.match(r"(.*?[.!?:])(?: [A-Z`(]|$)", text)
    return found[1] if found else text


def definitions():
    """What the comment above each public definition says, by its crate and its name; where it has none, what the last one above it says, and that it is so."""
    found = {}
    for file in sorted(CRATES.glob("*/specs/**/*.antt")):
        crate, said, last = file.relative_to(CRATES).parts[0], [], ""
        for line in file.read_text().splitlines():
            line = line.strip()
            if line.startswith("-- ") and not line.startswith("-- ----"):
                said.append(line[3:])
                continue
            head = re.match(r"(?:abbrev pub|unfoldable pub|pub record) ([^\s:]+)(?= [{(:])", line)
            if head:
                own, last = bool(said), " ".join(said) or last
                found.setdefault((crate, head[1]), (last, own))
            said = []
    return found


def heads():
    """What the comment at the head of each file of definitions says, by its crate and its module."""
    for file in sorted(CRATES.glob("*/specs/**/*.antt")):
        parts = file.relative_to(CRATES).with_suffix("").parts
        said = [line[3:] for line in itertools.takewhile(lambda it: it.startswith("-- "), file.read_text().splitlines())]
        yield parts[0], ".".join(parts[2:]), " ".join(said)


def citations(text):
    """The sections of standards that a text cites."""
    for standard, sections in CITED.findall(text):
        kind = "appendix" if "appendix" in sections else "section"
        numbers = re.findall(r"[\d.]*\d|\b[A-Z]\b", sections)
        yield from (f"{standard} {kind} {it}" for it in numbers) if numbers else [standard]


def imports(text):
    """The names that a file's contracts take from specs of the repository, each with its crate and its own name."""
    found = {}
    for crate, names in re.findall(r"^\s*ghost use Rattle\.(\w+)\.specs\.[\w.]+\.\{(.*)\};", text, re.M):
        for name in names.split(","):
            own, _, other = name.strip().partition(" as ")
            found[other or own] = (crate, own)
    return found


def braced(text, at):
    """The text of the braces that open at this place, and the place after them."""
    depth = 0
    for place in range(at, len(text)):
        depth += {"{": 1, "}": -1}.get(text[place], 0)
        if depth == 0:
            return " ".join(text[at + 1 : place].split()), place + 1
    raise ValueError(text[at : at + 60])


def clauses(text):
    """The clauses of a contract: their kinds, names and texts."""
    found, at = [], 0
    while head := re.compile(r"\b(requires|ensures)(?: (\w+))? \{").search(text, at):
        clause, at = braced(text, head.end() - 1)
        found.append((head[1], head[2], clause))
    return found


def ends(text, line, indent):
    """Whether a function's head, with its contract, ends here, before this line."""
    if not re.search(r"^\s*(requires|ensures)\b", text, re.M):
        return text.endswith((";", "{", "{}")) or line.startswith(indent + "{")
    return text.count("{") == text.count("}") and (text.endswith(";") or line.startswith(indent + "{"))


def calls(file):
    """The public calls of a file: the type or trait that they belong to, their names, what is said of them, and their clauses."""
    lines, owner, is_trait, said, at = file.read_text().splitlines(), "", False, [], 0
    while at < len(lines):
        line = lines[at]
        at += 1
        if line.strip().startswith("///"):
            said.append(line.strip()[3:].strip())
            continue
        if line.strip().startswith("#["):
            continue
        if re.match(r"(?:unsafe )?impl\b", line) or re.match(r"pub trait\b", line):
            is_trait = line.startswith("pub trait")
            while "{" not in line and not line.endswith(";"):
                line += " " + lines[at].strip()
                at += 1
            if is_trait:
                yield "", re.match(r"pub trait (\w+)", line)[1], said, None
            bare = re.sub(r"<[^<>]*>", "", re.sub(r"<[^<>]*>", "", re.sub(r"<[^<>]*>", "", line)))
            words = re.match(r"(?:pub trait|impl) (?:.*? for )?&?(?:mut )?(\w+)", bare)
            owner = words[1] if words and (is_trait or " for " not in bare) else ""
        elif line.startswith("}"):
            owner, is_trait = "", False
        elif head := re.match(r"(\s*)(pub )?(?:const )?fn (\w+)", line):
            indent, is_public, name = head[1], head[2] or is_trait, head[3]
            text = line
            while not ends(text, lines[at] if at < len(lines) else "", indent):
                text += "\n" + lines[at]
                at += 1
            if is_public and (owner or not indent):
                yield owner, name, said, clauses(text)
        said = []


def exported(crate):
    """The names that a crate's root exports."""
    text = (CRATES / crate / "src/lib.rt").read_text()
    names = []
    for path in re.findall(r"^pub use ([^;]+);", text, re.M):
        names += re.findall(r"\w+", path.partition("{")[2] or path.rpartition("::")[2])
    return set(names) | set(re.findall(r"^pub (?:fn|struct|enum|trait) (\w+)", text, re.M))


def cell(text):
    return text.replace("|", "\\|")


def says(clause, names, known):
    """What a clause says: its text where that is short, else the relations that it cites, the first two of them with their comments."""
    if len(clause) <= SHORT:
        return f"`{cell(clause)}`"
    # (types of what is spoken of say nothing)
    bare = re.sub(r"\(([\w' ]+) : [^()]*\)", r"\1", clause)
    cited = list(dict.fromkeys(names[word] for word in WORD.findall(bare) if word in names and names[word] in known))
    relations = [it for it in cited if it[1][0].isupper()]
    telling = [it for it in relations if it[1] not in GENERAL] or relations or cited
    if not telling:
        return f"`{cell(clause)}`"
    # (what follows from something comes last)
    chosen = telling[-2:] if "→" in clause else telling[:2]
    return "; ".join(f"`{it[1]}`, {cell(sentence(known[it][0]).rstrip('.'))}" if known[it][0] else f"`{it[1]}`" for it in chosen)


def root_of(crate):
    """The file at the root of a crate: that of a library, or that of a program."""
    library = CRATES / crate / "src/lib.rt"
    return library if library.exists() else CRATES / crate / "src/main.rt"


def is_library(crate):
    return root_of(crate).name == "lib.rt"


def tests_alone(crate):
    """Whether a crate has nothing but tests."""
    return crate.startswith("test_")


def said_of(crate):
    """What the root of a crate says of it."""
    said = itertools.takewhile(lambda it: it.startswith("//!"), root_of(crate).read_text().splitlines())
    return " ".join(line[4:] for line in said if line[4:])


def section(crate, known):
    """What is said of a crate: what it has, its calls with their clauses, and the edits to it that are refused."""
    lines = [f"## `{crate}`", "", said_of(crate), ""]
    shown = exported(crate)
    for file in sorted((CRATES / crate / "src").rglob("*.rt")):
        names = imports(file.read_text())
        for owner, name, said, contract in calls(file):
            if (owner or name) not in shown:
                continue
            if contract is None:
                lines += [f"**`{name}`.** {' '.join(' '.join(said).split())}", ""]
                continue
            lines += [f"**`{owner}::{name}`** " if owner else f"**`{name}`** "]
            lines[-1] += sentence(" ".join(" ".join(said).split("\n\n")[0].split()))
            lines[-1] = lines[-1].rstrip()
            told = [
                ("wants " if kind == "requires" else "") + (f"`{clause}`: " if clause else "") + says(text, names, known)
                for kind, clause, text in contract
            ]
            if len(told) == 1:
                lines[-1] += f" {told[0]}"
            else:
                lines += [f"- {it}" for it in told]
            lines += [""]
    edits = [it.stem.replace("_", " ") for it in sorted((CRATES / crate).glob("must-fail/*.edit"))]
    others = [it.stem.replace("_", " ") for it in sorted((TOP / "edits" / crate).glob("*.edit"))]
    if edits:
        lines += [f"Refused by the gate: {'; '.join(edits)}.", ""]
    if others:
        lines += [f"To be refused, in `edits/`: {'; '.join(others)}.", ""]
    return lines


def proved():
    """The whole file."""
    below, known = uses(), definitions()
    crates = [it for it in from_the_lowest(below) if is_library(it) and not tests_alone(it)]
    lines = [(TOP / "docs/promises.md").read_text().rstrip(), ""]
    for crate in crates:
        lines += section(crate, known)
    return "\n".join(lines).rstrip() + "\n"


def standards():
    """Which definitions, and which files of them, cite which section of which standard."""
    found = {}
    for (crate, name), (said, own) in definitions().items():
        for cited in citations(said) if own else []:
            found.setdefault(cited, {}).setdefault(crate, set()).add(f"`{name}`")
    for crate, module, said in heads():
        for cited in citations(said):
            found.setdefault(cited, {}).setdefault(crate, set()).add(f"all of {module}")

    def order(cited):
        return [f"{int(it):06}" if it.isdigit() else it for it in re.split(r"(\d+)", cited)]

    lines = ["| Standard | Definitions |", "|---|---|"]
    for cited in sorted(found, key=order):
        lines += [f"| {cited} | {'; '.join(f'`{crate}`: ' + ', '.join(sorted(names)) for crate, names in sorted(found[cited].items()))} |"]
    return "\n".join(lines)


def layers():
    """The crates of each layer, by the headers of crates.txt."""
    found = {}
    for line in (TOP / "crates.txt").read_text().splitlines():
        if line.startswith("# "):
            crates = found.setdefault(line[2:], [])
        elif line:
            crates.append(line.partition(":")[0])
    return found


def crates_by_layer():
    """What each crate is, by layers, and which libraries no program stands on."""
    below, found = uses(), layers()
    used = set().union(*(stands_on(it, below) for it in found["programs"]))
    lines, others = [], []
    for layer, crates in found.items():
        lines += [f"|*{layer}*||"] + [f"|`{it}`|{cell(said_of(it).partition('. ')[0].rstrip('.'))}|" for it in crates]
        others += [f"`{it}`" for it in crates if it not in used and is_library(it) and not it.startswith(("test_", "case_"))]
    return "\n".join(["|Crate|What it is|", "|---|---|"] + lines + ["", f"No program uses these yet: {', '.join(others)}."])


def stands_on(crate, below):
    """A crate of ours, and all that it stands on."""
    return {crate}.union(*(stands_on(it, below) for it in below[crate] if it in below))


def with_part(name, mark, part):
    """A document, with that part between its two marks."""
    text = (TOP / "docs" / name).read_text()
    marks = f"<!-- {mark} -->\n", "<!-- up to here -->"
    if marks[0] not in text:
        return text
    front, rest = text.split(marks[0])
    return front + marks[0] + "\n" + part + "\n\n" + marks[1] + rest.split(marks[1], 1)[1]


def main():
    stale = False
    made_anew = {
        "PROVED.md": proved(),
        "FORMATS.md": with_part("FORMATS.md", "from the definitions", standards()),
        "ARCHITECTURE.md": with_part("ARCHITECTURE.md", "from the roots of the crates", crates_by_layer()),
    }
    for name, made in made_anew.items():
        file = TOP / "docs" / name
        if file.exists() and file.read_text() == made:
            continue
        if sys.argv[1:] == ["--check"]:
            print(f"docs/{name} is stale: docs/proved.py makes it anew", file=sys.stderr)
            stale = True
        else:
            file.write_text(made)
    sys.exit(stale)


main()
