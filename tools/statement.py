#!/usr/bin/env python3
"""Which definitions the promises of `run` rest on: follows the names of specs/ down from the clauses of `run`, and holds
docs/STATEMENT.md and docs/STATEMENT-REST.md to them.

    tools/statement.py            prints what it makes of both pages
    tools/statement.py --check    says which lines of the pages are missing, too many or at another place, which definition has
                                  no sentence, and which files they name that aren't there; status 1 where there is one
    tools/statement.py --fix      writes what it makes into both pages

The first page has the definitions that the headline's clauses reach, those of the clause `answered` down to the answer of each
command, and those that say what the files and the output of a run are. The second page has all others that a clause of `run`
reaches. A definition's sentence is the comment above it; one that has none gets what stands in its row of a page. Names of
crates and files are taken from the sources.
"""
import re
import sys
from pathlib import Path

TOP = Path(__file__).resolve().parent.parent
PAGE = TOP / "docs/STATEMENT.md"
REST = TOP / "docs/STATEMENT-REST.md"
PROGRAM = "bprice"
TOP_CALL = "run"
HEADLINE = ("solved_truly", "solves_accepted", "checked_truly")
WHOLE = "answered"
# What each command answers begins the second page.
REST_BEGINS = "AnswersOrder"
READING_ORDER = "## Reading order"

HEAD = re.compile(
    r"^(?:(?:abbrev|unfoldable|opaque)\s+(?:pub\s+)?|pub\s+)(?:(?:record|data)\s+)?([A-Za-z_][\w'-]*)"
    r"|^\s+(?:abbrev|unfoldable|opaque)\s+(?:pub\s+)?([A-Za-z_][\w'-]*)"
)
USE = re.compile(r"^(?:pub |ghost )?use Rattle\.(\S+?)(?:\.\{(.*)\}| as (\w+));?\s*$")
NAME = re.compile(r"(?<![\w'.-])(?:([A-Za-z_][\w'-]*)\.)?([A-Za-z_][\w'-]*)")


class Unknown(Exception):
    """A name that the sources cite and that none of their files defines."""


class Definition:
    """A definition of a specs file: its name, the line it begins on, its text without comments, and the comment above it."""

    def __init__(self, module, name, line, comment):
        self.module, self.name, self.line, self.comment = module, name, line, comment
        self.text = []

    @property
    def file(self):
        """Its file's path from the top."""
        return self.module.path.relative_to(TOP).as_posix()


class Scope:
    """The names that the `use` lines of a file bring in."""

    def __init__(self):
        self.names, self.aliases = {}, {}

    def bring_in(self, line):
        """Takes a line, and returns whether it brings names in."""
        used = USE.match(line)
        if not used:
            return False
        path, names, alias = used.groups()
        parts = path.split(".")
        if alias:
            self.aliases[alias] = parts
        else:
            for name in re.split(r",\s*", names):
                known, _, here = name.partition(" as ")
                self.names[here or known] = (parts, known)
        return True


class Module(Scope):
    """A specs file: its definitions, the names that it brings in, and which definition a constructor belongs to."""

    def __init__(self, path):
        super().__init__()
        self.path, self.definitions, self.constructors = path, {}, {}
        comment, current = [], None
        for number, line in enumerate(path.read_text(encoding="utf-8").splitlines(), 1):
            if line.lstrip().startswith("--"):
                comment.append(line.lstrip("- ").strip())
                continue
            if not line.strip():
                comment, current = [], None
                continue
            if self.bring_in(line):
                comment = []
                continue
            head = HEAD.match(line)
            if head and not line.startswith("pub mod"):
                current = Definition(self, head[1] or head[2], number, " ".join(comment))
                self.definitions[current.name] = current
                comment = []
            if current is not None:
                self.take_line(current, line)

    def take_line(self, current, line):
        """A line of a definition, which may begin with a constructor of it."""
        current.text.append(line)
        made = re.match(r"^\s+([A-Za-z_][\w']*) :", line)
        if made:
            self.constructors[made[1]] = current.name


class Sources:
    """All specs files of the repository, by crate and name."""

    def __init__(self):
        self.modules = {}
        for path in sorted(TOP.glob("crates/*/specs/*.antt")):
            self.modules[path.parent.parent.name, path.stem] = Module(path)

    def definition_at(self, parts, name):
        """The definition that an import names, or none where it is the kit's or a type of a crate's code."""
        if len(parts) < 3 or not (TOP / "crates" / parts[0]).is_dir() or parts[1:3] == ["specs", "declared"]:
            return None
        module = self.modules.get((parts[0], parts[2]))
        if module is not None:
            owner = name if name in module.definitions else module.constructors.get(name)
            if owner in module.definitions:
                return module.definitions[owner]
            if name in module.names:
                return self.definition_at(*module.names[name])
        raise Unknown(f"{'.'.join(parts)}.{name}: no file of the sources defines it")

    def named_in(self, scope, text):
        """The definitions that a text names, in its order, by what is brought in and defined where it stands."""
        found = []
        for alias, name in NAME.findall(re.sub(r'"[^"]*"', '""', text)):
            target = None
            if alias in scope.aliases:
                target = self.definition_at(scope.aliases[alias], name)
            elif not alias and name in scope.names:
                target = self.definition_at(*scope.names[name])
            elif not alias and isinstance(scope, Module):
                target = scope.definitions.get(name) or scope.definitions.get(scope.constructors.get(name))
            if target is not None and target not in found:
                found.append(target)
        return found

    def closure(self, roots, ends_at=()):
        """The roots and all definitions that they rest on, in reading order: from the top down. Definitions whose names are
        in `ends_at` are not followed."""
        order, waiting = {}, list(roots)
        while waiting:
            at = waiting.pop(0)
            if at not in order:
                order[at] = True
                if at.name not in ends_at:
                    waiting += self.named_in(at.module, "\n".join(at.text))
        return list(order)


class Code(Scope):
    """A file of a crate's code, with the names that it brings in at its top."""

    def __init__(self, path):
        super().__init__()
        self.path, self.text = path, path.read_text(encoding="utf-8")
        for line in self.text.splitlines():
            self.bring_in(line)

    def crate_of(self, name):
        """The crate that a name of its code is used from."""
        for crate, names, one in re.findall(r"^use (\w+)::(?:\{([^}]*)\}|(\w+));", self.text, re.M):
            if name in re.split(r",\s*", names) or name == one:
                return crate
        raise Unknown(f"{self.path.relative_to(TOP)}: {name} is used from no crate")


MOST_SAID = 360  # characters of what a row says; the whole stands beside the definition


def shortened(says):
    """What a row says of a definition: the beginning that fits, up to the end of a clause."""
    if len(says) <= MOST_SAID:
        return says
    return says[:max(says.rfind(mark, 0, MOST_SAID) for mark in (", ", "; ", ": "))] + " .."


def code_with(crate, beginning):
    """The file of a crate that has a line with this beginning, and what stands from there to the next line that closes it."""
    for path in sorted((TOP / "crates" / crate / "src").glob("*.rt")):
        text = path.read_text(encoding="utf-8")
        at = re.search("^" + re.escape(beginning) + r"\b", text, re.M)
        if at:
            return Code(path), text[at.start() : text.index("\n}", at.start())]
    raise Unknown(f"crates/{crate}: no file has '{beginning}'")


def without_comments(text):
    """A text of code without the lines that are comments."""
    return "\n".join(line for line in text.splitlines() if not line.lstrip().startswith("//"))


def clauses_in(text):
    """The clauses of a function by their names, in order."""
    found = {}
    for at in re.finditer(r"\bensures (\w+) \{", text):
        depth, end = 1, at.end()
        while depth:
            depth += {"{": 1, "}": -1}.get(text[end], 0)
            end += 1
        found[at[1]] = text[at.end() : end - 1]
    return found


class Promise:
    """What `run` promises: its file, the definitions that each of its clauses names, and those that say what the files and the
    output are that it is given."""

    def __init__(self, sources):
        crate = Code(TOP / "crates" / PROGRAM / "src/main.rt").crate_of(TOP_CALL)
        code, text = code_with(crate, f"pub fn {TOP_CALL}")
        self.file = code.path.relative_to(TOP).as_posix()
        clauses = clauses_in(without_comments(text))
        self.clauses = {name: sources.named_in(code, clause) for name, clause in clauses.items()}
        self.outside = []
        for trait in re.findall(r"\w+: (\w+)", re.match(r"[^<(]*<([^>]*)>", text)[1]):
            held, declared = code_with(code.crate_of(trait), f"pub trait {trait}")
            self.outside += sources.named_in(held, without_comments(declared))

    def named_by(self, clauses):
        """The definitions that these clauses name."""
        for name in clauses:
            if name not in self.clauses:
                raise Unknown(f"{self.file}: {TOP_CALL} has no clause {name}")
        return [it for name in clauses for it in self.clauses[name]]


def parted(sources, promise):
    """The definitions of the first page and those of the second, in reading order."""
    whole = sources.closure(promise.named_by([WHOLE]), ends_at={REST_BEGINS})
    if REST_BEGINS not in {it.name for it in whole}:
        raise Unknown(f"{promise.file}: {REST_BEGINS} is not reached from {WHOLE}")
    first = dict.fromkeys(sources.closure(promise.named_by(HEADLINE)) + whole + sources.closure(promise.outside))
    return list(first), [it for it in sources.closure(promise.named_by(promise.clauses)) if it not in first]


def size_of(definitions):
    """How many definitions these are, and of how many lines together."""
    lines = sum(len(it.text) for it in definitions)
    return f"{len(definitions):,} definition{'s' * (len(definitions) != 1)}, {lines:,} line{'s' * (lines != 1)}"


def table(definitions, sentences):
    """File by file in the order in which they are first met, each definition with its line and its sentence."""
    files = {}
    for it in definitions:
        files.setdefault(it.file, []).append(it)
    lines = []
    for file, those in files.items():
        lines += ["", f"### `{file}`", "", f"{size_of(those)}.", "", "| Line | Definition | Says |", "|---|---|---|"]
        for it in sorted(those, key=lambda it: it.line):
            says = it.comment.replace("|", "\\|") or sentences.of(it)
            lines.append(f"| {it.line} | `{it.name}` | {shortened(says)} |")
    return [*lines, ""]


class Sentences:
    """The sentences of the pages' rows: by file and name, and where the file is gone from its crate, by its own name alone."""

    def __init__(self, pages):
        self.exact, self.near = {}, {}
        file = None
        for line in "\n".join(pages).splitlines():
            head = re.match(r"^### `(.*)`$", line)
            row = re.match(r"^\| \d+ \| `(.*?)` \| (.+) \|$", line)
            if head:
                file = head[1]
            elif row and file:
                self.exact[file, row[1]] = row[2]
                if not (TOP / file).exists():
                    self.near[Path(file).name, row[1]] = row[2]

    def of(self, definition):
        """What the pages say of a definition."""
        known = self.exact.get((definition.file, definition.name))
        return known or self.near.get((definition.module.path.name, definition.name), "")


def renewed(text, parts):
    """A page in which each part that is made stands between its two marks."""
    for name, lines in parts.items():
        before, begin, behind = text.partition(f"<!-- {name} -->\n")
        _, end, after = behind.partition(f"<!-- end of {name} -->\n")
        if not end:
            raise Unknown(f"a page lacks the marks of its {name}")
        text = before + begin + "".join(f"{line}\n" for line in lines) + end + after
    return text


def pages_made(sources, promise, pages):
    """Both pages, with what this tool makes of them in place of what stands there, and the files that the first one lists."""
    first, rest = parted(sources, promise)
    headline = sources.closure(promise.named_by(HEADLINE))
    sentences = Sentences(pages.values())
    sizes = [
        f"The headline's clauses rest on {size_of(headline)}. With those of `{WHOLE}` and of files and output this page lists {size_of(first)}.",
        f"All that `{TOP_CALL}` promises rests on {size_of(first + rest)}, comments not counted: `docs/{REST.name}` lists the others, {size_of(rest)}.",
    ]
    clauses = ["| Clause | Definitions that it names |", "|---|---|"]
    for name, named in promise.clauses.items():
        clauses.append(f"| `{name}` | {', '.join(f'`{it.name}`' for it in named) or 'none'} |")
    made = {
        PAGE: {"sizes": sizes, "definitions": table(first, sentences)},
        REST: {"sizes": sizes[1:], "clauses": clauses, "definitions": table(rest, sentences)},
    }
    return {path: renewed(pages[path], made[path]) for path in pages}, {it.file for it in first}


def faults_of(path, page, made, listed):
    """What is wrong with a page: lines that differ from those that are made, rows without a sentence, files that aren't there,
    and files of the reading order that the page doesn't list."""
    has, wanted = page.splitlines(), made.splitlines()
    faults = [f"missing: {it}" for it in wanted if it not in has] + [f"too many: {it}" for it in has if it not in wanted]
    if not faults and has != wanted:
        faults.append("its lines are in another order")
    faults += [f"no sentence: {it}" for it in wanted if it.endswith("|  |")]
    faults += [f"no such file: {it}" for it in re.findall(r"`((?:crates|docs)/[\w/.-]+)`", page) if not (TOP / it).exists()]
    reading = page.partition(READING_ORDER)[2].partition("\n## ")[0]
    names = {name for file in listed for name in (file, Path(file).name)}
    faults += [f"the reading order names {it}, which the page doesn't list" for it in re.findall(r"`([\w/]+\.antt)`", reading) if it not in names]
    return [f"{path.relative_to(TOP)}: {it}" for it in faults]


def main(words):
    try:
        sources = Sources()
        pages = {path: path.read_text(encoding="utf-8") for path in (PAGE, REST)}
        made, listed = pages_made(sources, Promise(sources), pages)
    except Unknown as fault:
        print(f"tools/statement.py: {fault}", file=sys.stderr)
        return 1
    if "--fix" in words:
        for path, text in made.items():
            path.write_text(text, encoding="utf-8")
        return 0
    if "--check" not in words:
        print("\n".join(made.values()))
        return 0
    faults = [fault for path in pages for fault in faults_of(path, pages[path], made[path], listed)]
    for fault in faults:
        print(fault, file=sys.stderr)
    return 1 if faults else 0


if __name__ == "__main__":
    sys.exit(main(sys.argv[1:]))
