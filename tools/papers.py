#!/usr/bin/env python3
"""Holds the papers to the repository. Run from the repository's root.

  tools/papers.py          of docs/GUARANTEES.md: looks up every name in backticks, and compares the lists of what must
                           be believed and the list of edits with the files. Of README.md: the lines in C are those of
                           examples/head.c, and every crate is named. Of all papers: links lead to a file, and no line
                           is too wide. One line for each failure, and status 1 where there is any
  tools/papers.py --write  writes the list of edits anew, from the first lines of the .edit files
"""
import collections
import pathlib
import re
import sys
import textwrap

PAPER = pathlib.Path("docs/GUARANTEES.md")
README = pathlib.Path("README.md")
EXAMPLE = pathlib.Path("examples/head.c")
COLUMNS = 120
BEGIN = "<!-- edits: from here on by tools/papers.py -->"
END = "<!-- end of edits -->"
CRATES = pathlib.Path("crates")


def crates():
    """Our crates in the order of crates.txt, and those of the kit that they need: std, which no line names, and any others."""
    own, needed = [], {"std"}
    for line in pathlib.Path("crates.txt").read_text(encoding="utf8").splitlines():
        if line and not line.startswith("#"):
            name, _, rest = line.partition(":")
            own.append(name.split()[0])
            needed.update(rest.split())
    return own, needed - set(own)


# ---- the list of edits


def wrap(text):
    return textwrap.wrap(text, COLUMNS, subsequent_indent="  ", break_long_words=False, break_on_hyphens=False)


def edits(own):
    """The lines of the list, crate by crate: each edit with what its first line says."""
    files = {crate: sorted((CRATES / crate / "must-fail").glob("*.edit")) for crate in own}
    lines = ["", f"{sum(map(len, files.values()))} edits."]
    for crate in own:
        if files[crate]:
            lines += ["", f"### `{crate}`: {len(files[crate])}", ""]
        for path in files[crate]:
            first = path.read_text(encoding="utf8").split("\n")[0]
            if not first.startswith("# "):
                sys.exit(f"{path}:1: the first line has to be `# what the wrong program does`")
            lines += wrap(f"- `{path.stem}`: {first[2:]}")
    return lines + [""]


def bounds(lines):
    if lines.count(BEGIN) != 1 or lines.count(END) != 1:
        sys.exit(f"{PAPER}: wants one line `{BEGIN}` and one line `{END}`")
    return lines.index(BEGIN) + 1, lines.index(END)


def write(own):
    lines = PAPER.read_text(encoding="utf8").splitlines()
    start, end = bounds(lines)
    PAPER.write_text("\n".join(lines[:start] + edits(own) + lines[end:]) + "\n", encoding="utf8")


def stale(lines, own):
    start, end = bounds(lines)
    found, wanted = lines[start:end], edits(own)
    if found != wanted:
        # the first line that differs; one list may be the start of the other
        same = next((i for i, (a, b) in enumerate(zip(found, wanted)) if a != b), min(len(found), len(wanted)))
        yield start + same + 1, "the edits are not those of must-fail/: run tools/papers.py --write"


# ---- the names of the sources


def code(path):
    """A source without its comments: a name in a remark is not one that exists."""
    mark = {".rt": "//", ".antt": "--"}[path.suffix]
    return re.sub(rf"(?m)(^|\s){mark}.*$", r"\1", path.read_text(encoding="utf8"))


ITEM = re.compile(r'(?:pub(?:\(crate\))? )?(?:extern "C" )?(fn|const|struct|enum|type|mod) (\w+)')
MEMBER = re.compile(r" {4}(?:pub(?:\(crate\))? )?(\w+)(?=[:,(]| = )")
TYPE = re.compile(r"( *)(?:pub )?(?:record|data) ([^\s{(]\S*)")
NAME = re.compile(r"( *)(?:(?:abbrev|unfoldable|pub) )*([^\s(){};,]+) :(?: (.*))?$")


class Names:
    def __init__(self, own, kit):
        self.own, self.kit = own, kit
        self.items = collections.defaultdict(set)    # (crate, module) to its functions, constants, types and modules
        self.members = collections.defaultdict(set)  # (crate, type) to its fields, cases, methods and constants
        self.declared = set()                        # every name that a source gives to something
        self.typed = set()                           # `theorem : Type`
        self.edits = {path.stem for path in CRATES.glob("*/must-fail/*.edit")}
        self.rattle = ""
        for crate in own:
            for path in sorted((CRATES / crate / "src").rglob("*.rt")):
                self.read_rattle(crate, path)
            for folder in ("specs", "proofs"):
                for path in sorted((CRATES / crate / folder).rglob("*.antt")):
                    self.read_antt(crate, path)
        for names in (*self.items.values(), *self.members.values()):
            self.declared |= names

    def read_rattle(self, crate, path):
        text = code(path)
        self.rattle += text
        self.declared.update(re.findall(r"\blet (?:mut )?(\w+)", text))
        module, owner = "" if path.stem in ("lib", "main") else path.stem, None
        for line in text.splitlines():
            item = ITEM.match(line.lstrip(" "))
            if line[:1].strip():
                # a line at the margin begins a block or ends one
                block = re.match(r"(?:pub(?:\(crate\))? )?(?:struct|enum|impl) (\w+)", line)
                owner = block and block.group(1)
                if item:
                    self.items[crate, module].add(item.group(2))
            elif owner and re.match(r" {4}\S", line):
                member = item or MEMBER.match(line)
                if member:
                    self.members[crate, owner].add(member.group(member.re.groups))

    def read_antt(self, crate, path):
        owner, depth = None, 0
        for line in code(path).splitlines():
            kind, name = TYPE.match(line), NAME.match(line)
            if line.strip() and owner and len(line) - len(line.lstrip(" ")) <= depth:
                owner = None
            if kind:
                owner, depth = kind.group(2), len(kind.group(1))
                self.declared.add(owner)
            elif name:
                self.declared.add(name.group(2))
                self.typed.add(f"{name.group(2)} : {name.group(3)}")
                if owner:
                    self.members[crate, owner].add(name.group(2))

    def has_member(self, owner, name, crate=None):
        return any(name in names for (c, o), names in self.members.items() if o == owner and crate in (None, c))

    def has_path(self, parts):
        """`crate::module`, `crate::module::item`, `crate::item`, `crate::Type::member` or `Type::member`."""
        first, last = parts[0], parts[-1]
        if not last:
            return False
        if first in self.kit:
            # of the kit's crates only what our code uses can be seen here
            return re.search(rf"\b{re.escape('::'.join(parts))}\b", self.rattle) is not None
        if first not in self.own:
            return len(parts) == 2 and self.has_member(first, last)
        between = parts[1:-1]
        if len(between) > 1:
            return False
        module = between[0] if between else ""
        return last in self.items.get((first, module), ()) or bool(between) and self.has_member(module, last, first)

    def has_file(self, name):
        """A path from the root or from crates/, the ending .antt left off; or a folder that some crate has."""
        if not re.fullmatch(r"[\w-][\w.-]*(/[\w-][\w.-]*)*/?", name):
            return False
        places = [pathlib.Path(name), CRATES / name, CRATES / f"{name}.antt"]
        if name.endswith("/"):
            places += [CRATES / crate / name for crate in self.own]
        return any(place.exists() for place in places)

    def has(self, name):
        if " : " in name:
            return name in self.typed
        if " ." in name:
            return self.has_member(*name.split(" .", 1))
        if "::" in name:
            return self.has_path(name.split("::"))
        if "/" in name:
            return self.has_file(name)
        if ".." in name:
            # a family of names: `..` stands for the part in which they differ
            family = re.compile(r"\w+".join(map(re.escape, name.split(".."))))
            return len(name) > 4 and sum(bool(family.fullmatch(one)) for one in self.declared) > 1
        return name in self.declared or name in self.own or name in self.kit or name in self.edits


# ---- what must be believed: lists in the paper whose items are a crate or module, and then names of it


def serves_code(path):
    """Whether the first line of a file of specs/ says that no reader has to believe it."""
    return re.search(r"(?i)only serves? the code's own contracts", path.read_text(encoding="utf8").split("\n")[0])


# a module, and the names that are taken from it; without a list of names, all of them
USE = r"use ([^\s{;]+?)(?:\.\{([^}]*)\})?(?: as \S+)?;?$"
# a type of our code in a definition's imports: its crate, the modules that it stands in, and its name
DECLARED = r"(?m)^use Rattle\.(\w+)\.specs\.declared\.((?:[a-z_]+\.)*)([A-Z]\w*)"


def is_own(module, own):
    """Whether a module is one of ours: `Rattle.CRATE` of a crate in crates.txt, or what stands under it. All others are the kit's."""
    first, _, rest = module.partition(".")
    return first == "Rattle" and rest.partition(".")[0] in own


def believed(own):
    """For each such list, by its heading: the names that it has to have, for each crate or module."""
    believed_files, serving, types, kit = (collections.defaultdict(set) for _ in range(4))
    uses = []
    for path in sorted(CRATES.glob("*/specs/*.antt")):
        text = code(path)
        uses += re.findall("(?m)^" + USE, text)
        if path.stem == "Lib":
            continue    # it only names the files beside it
        (serving if serves_code(path) else believed_files)[path.parts[1]].add(path.stem)
        if not serves_code(path):
            for crate, modules, name in re.findall(DECLARED, text):
                if crate in own:
                    types["::".join([crate, *modules.split(".")[:-1]])].add(name)
    for path in sorted(CRATES.glob("*/src/**/*.rt")):
        uses += re.findall("(?m)^ghost " + USE, code(path))
    for module, names in uses:
        if not is_own(module, own):
            taken = [name.split(" as ")[0].strip() for name in (names or "all of it").split(",")]
            kit[module].update(filter(None, taken))
    return {
        "### Definitions": believed_files,
        "### Definitions that only serve the code": serving,
        "### Structs and enums": types,
        "### The kit's library": kit,
    }


# ---- the checks


def check_names(lines, names):
    """Each failure with its line's number; the number of names comes last."""
    lists = believed(names.own)
    section, owner, count, failures = None, None, 0, []
    named = {title: collections.defaultdict(set) for title in lists}
    begins = {}
    for number, line in enumerate(lines, 1):
        if line.startswith("#"):
            section, owner = line if line in lists else None, None
            begins[line] = number
        if line.count("`") % 2:
            failures.append((number, "a name in backticks has to stand on one line"))
        for place, name in enumerate(re.findall(r"`([^`]*)`", line)):
            count += 1
            if section is None:
                found = names.has(name)
            elif line.startswith("- `") and place == 0:
                owner, found = name, name in lists[section]
            else:
                found = name in lists[section].get(owner, ())
                named[section][owner].add(name)
            if not found:
                failures.append((number, f"no such name: {name}"))
    for title, wanted in lists.items():
        for owner in sorted(wanted):
            for name in sorted(wanted[owner] - named[title][owner]):
                failures.append((begins.get(title, 1), f"not named under `{title}`: {name} of {owner}"))
    return failures, count


# ---- the other papers


def check_readme(own):
    """The lines in C, those of the section with the example that stand four columns in; comments are the paper's own."""
    lines = README.read_text(encoding="utf8").splitlines()
    program = {line.strip() for line in EXAMPLE.read_text(encoding="utf8").splitlines()}
    title = "## A head in C"
    if title not in lines:
        yield README, 1, f"wants a section `{title}`"
        return
    begin, shown = lines.index(title) + 1, 0
    for number, line in enumerate(lines[begin:], begin + 1):
        if line.startswith("#"):
            break
        if line.startswith("    ") and not line.strip().startswith("//"):
            shown += 1
            if line.strip() not in program:
                yield README, number, f"no line of {EXAMPLE}: {line.strip()}"
    if shown == 0:
        yield README, begin, f"shows no line of {EXAMPLE}"
    named = set(re.findall(r"`([^`]*)`", "\n".join(lines)))
    for crate in own:
        if crate not in named:
            yield README, 1, f"does not name the crate {crate}"


def check_lines(paper):
    """The width of each line, and the files that links lead to."""
    for number, line in enumerate(paper.read_text(encoding="utf8").splitlines(), 1):
        if len(line) > COLUMNS:
            yield paper, number, f"{len(line)} columns, {COLUMNS} at most"
        for target in re.findall(r"\]\(([^)#]+)\)", line):
            if not (paper.parent / target).exists():
                yield paper, number, f"a link to a file that is not there: {target}"


def main(words):
    own, kit = crates()
    if words == ["--write"]:
        write(own)
        return 0
    if words:
        sys.exit(__doc__)
    lines = PAPER.read_text(encoding="utf8").splitlines()
    failures, count = check_names(lines, Names(own, kit))
    failures = [(PAPER, *failure) for failure in failures + list(stale(lines, own))]
    failures += check_readme(own)
    for paper in [README, *sorted(pathlib.Path("docs").glob("*.md")), pathlib.Path("peer/README.md")]:
        failures += check_lines(paper)
    for paper, number, what in failures:
        print(f"{paper}:{number}: {what}")
    if not failures:
        print(f"{PAPER}: {count} names looked up, all found; no paper has a line over {COLUMNS} columns")
    return 1 if failures else 0


if __name__ == "__main__":
    sys.exit(main(sys.argv[1:]))
