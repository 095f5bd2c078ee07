"""`tools/statement.py` over a small repository: what it follows, what it writes into both pages, and what it finds wrong there."""
import re
import shutil
import subprocess
import sys

import pytest

from conftest import TOP

MAIN = "use cli::run;\n"
RUN = """// The top call.
ghost use Rattle.std.specs.Prelude.{◌≡◌, IsTrue, None};
ghost use Rattle.cli.specs.Running.{Answers, OfOrder, IsOnly};
ghost use Rattle.cli.specs.Headline.{SolvesTruly, ChecksTruly};

use shelf::{Shelf, ShelfFault};

/// Runs.
pub fn run<F: Shelf>(words: &[String], shelf: &mut F) -> u8
    // Of IsOnly no word is needed here.
    ensures solved_truly { OfOrder words.now (λ order. SolvesTruly order { F.file shelf.old }) }
    ensures solves_accepted { OfOrder words.now (λ order. result ≡ 0) }
    ensures checked_truly { OfOrder words.now (λ order. ChecksTruly order) }
    ensures answered { Answers words.now (F.file shelf.old) }
    ensures exact { IsOnly result }
    ensures kept { result ≡ None }
{
    0
}

fn IsUnused() {}
"""
RUNNING = """-- What a run answers.
use Rattle.orders.specs.Orders.{Order, IsOrderOf}
use Rattle.low.specs.Low as low

-- what is true of the order
abbrev pub OfOrder : List ℕ → Type 0
OfOrder words = IsOrderOf words

-- what each command answers
abbrev pub AnswersOrder : Order → Type 0
AnswersOrder order = low.IsSolved order

-- what words are answered
pub data Answers (words : List ℕ) : Type 0 where
  -- a comment that names IsOnly
  ordered : AnswersOrder words → codes "IsOnly" → Answers words

-- a status
abbrev pub IsOnly : ℕ → Type 0
IsOnly status = ordered status
"""
HEADLINE = """-- The headline.
use Rattle.low.specs.Low.{least}

-- it solves | truly
abbrev pub SolvesTruly : Order → Type 0
SolvesTruly order = least order

abbrev pub ChecksTruly : Order → Type 0
ChecksTruly order = Unit
"""
ORDERS = """-- Orders.
-- an order
pub record Order : Type 0 where
  pub name : ℕ

-- words are an order
abbrev pub IsOrderOf : List ℕ → Type 0
IsOrderOf words = Unit
"""
LOW = """-- Further down.

-- the least number
abbrev pub least : ℕ
least = 0

module _ (n : ℕ) where
  -- it is solved
  abbrev pub IsSolved : Order → Type 0
  IsSolved order = least ≡ 0
"""
SHELF_CODE = """ghost use Rattle.shelf.specs.Shelf.{IsShort, IsLong};

pub enum ShelfFault { Missing }

/// A shelf, which IsLong says nothing of.
pub trait Shelf {
    ghost file: { Self → ℕ };
    fn read(&mut self)
        ensures short { IsShort (file self.new) };
}

pub trait Other {
    ghost long: { IsLong };
}
"""
SHELF = """-- Files.
-- a short file
abbrev pub IsShort : ℕ → Type 0
IsShort n = Unit

-- a long file
abbrev pub IsLong : Type 0
IsLong = Unit
"""
PAGE = """# First

## Reading order

`Headline.antt`, then `crates/low/specs/Low.antt`.

## Sizes

<!-- sizes -->
<!-- end of sizes -->
<!-- definitions -->
### `crates/cli/specs/Headline.antt`
| 1 | `ChecksTruly` | it checks truly |
<!-- end of definitions -->
"""
REST = """# Second
<!-- sizes -->
<!-- end of sizes -->
<!-- clauses -->
<!-- end of clauses -->
<!-- definitions -->
<!-- end of definitions -->
"""
FILES = {
    "crates/bprice/src/main.rt": MAIN,
    "crates/cli/src/top.rt": RUN,
    "crates/cli/specs/Running.antt": RUNNING,
    "crates/cli/specs/Headline.antt": HEADLINE,
    "crates/orders/specs/Orders.antt": ORDERS,
    "crates/low/specs/Low.antt": LOW,
    "crates/shelf/src/shelf.rt": SHELF_CODE,
    "crates/shelf/specs/Shelf.antt": SHELF,
    "docs/STATEMENT.md": PAGE,
    "docs/STATEMENT-REST.md": REST,
}


@pytest.fixture(name="repository")
def small_repository(tmp_path):
    for name, text in FILES.items():
        (tmp_path / name).parent.mkdir(parents=True, exist_ok=True)
        (tmp_path / name).write_text(text, encoding="utf-8")
    (tmp_path / "tools").mkdir()
    shutil.copy(TOP / "tools/statement.py", tmp_path / "tools")
    tell(tmp_path, "--fix")
    return tmp_path


def tell(repository, *words):
    """What the tool says of a repository on standard error, line by line, and its status."""
    ran = subprocess.run([sys.executable, repository / "tools/statement.py", *words], capture_output=True, check=False, timeout=60)
    return ran.stderr.decode().splitlines(), ran.returncode


def rows(page):
    """The names of a page's rows in order."""
    return re.findall(r"^\| \d+ \| `(.*?)` \|", page, re.M)


def replace(path, old, new):
    text = path.read_text(encoding="utf-8")
    assert text.count(old) == 1
    path.write_text(text.replace(old, new), encoding="utf-8")


def test_both_pages_have_what_the_clauses_reach(repository):
    first = (repository / "docs/STATEMENT.md").read_text(encoding="utf-8")
    rest = (repository / "docs/STATEMENT-REST.md").read_text(encoding="utf-8")
    assert rows(first) == ["OfOrder", "AnswersOrder", "Answers", "SolvesTruly", "ChecksTruly", "IsOrderOf", "least", "IsShort"]
    assert rows(rest) == ["IsOnly", "Order", "IsSolved"]
    assert "| 5 | `SolvesTruly` | it solves \\| truly |" in first
    assert "| 8 | `ChecksTruly` | it checks truly |" in first
    assert "| `exact` | `IsOnly` |\n| `kept` | none |" in rest
    assert tell(repository, "--check") == ([], 0)


def test_sizes_are_those_of_the_definitions(repository):
    first = (repository / "docs/STATEMENT.md").read_text(encoding="utf-8")
    assert "The headline's clauses rest on 5 definitions, 10 lines." in first
    assert "this page lists 8 definitions, 16 lines." in first
    assert "rests on 11 definitions, 22 lines, comments not counted: `docs/STATEMENT-REST.md` lists the others, 3 definitions, 6 lines." in first


def test_fixing_twice_changes_nothing(repository):
    before = [(repository / name).read_bytes() for name in ("docs/STATEMENT.md", "docs/STATEMENT-REST.md")]
    assert tell(repository, "--fix") == ([], 0)
    assert [(repository / name).read_bytes() for name in ("docs/STATEMENT.md", "docs/STATEMENT-REST.md")] == before


def test_a_definition_more_is_missing(repository):
    replace(repository / "crates/cli/specs/Running.antt", "IsOrderOf words\n", "IsOrderOf words × IsEven\n\n-- even\nabbrev pub IsEven : Type 0\nIsEven = Unit\n")
    faults, status = tell(repository, "--check")
    assert status == 1
    assert "docs/STATEMENT.md: missing: | 10 | `IsEven` | even |" in faults


def test_a_definition_that_moves_is_at_another_place(repository):
    replace(repository / "crates/low/specs/Low.antt", "-- Further down.\n", "-- Further down.\n\n")
    faults, status = tell(repository, "--check")
    assert status == 1
    assert "docs/STATEMENT.md: missing: | 5 | `least` | the least number |" in faults
    assert "docs/STATEMENT.md: too many: | 4 | `least` | the least number |" in faults
    assert tell(repository, "--fix") == ([], 0)
    assert tell(repository, "--check") == ([], 0)


def test_a_clause_more_is_missing(repository):
    replace(repository / "crates/cli/src/top.rt", "    ensures kept {", "    ensures last { IsOnly result }\n    ensures kept {")
    assert tell(repository, "--check") == (["docs/STATEMENT-REST.md: missing: | `last` | `IsOnly` |"], 1)


def test_a_definition_without_a_sentence_is_told(repository):
    replace(repository / "crates/cli/specs/Running.antt", "-- a status\n", "")
    tell(repository, "--fix")
    faults, status = tell(repository, "--check")
    assert (faults, status) == ([], 0), "the page has kept the sentence"
    replace(repository / "docs/STATEMENT-REST.md", " a status |", "  |")
    assert tell(repository, "--check")[1] == 1
    tell(repository, "--fix")
    assert tell(repository, "--check") == (["docs/STATEMENT-REST.md: no sentence: | 18 | `IsOnly` |  |"], 1)


@pytest.mark.parametrize("named", ["crates/shelf/specs/Other.antt", "docs/MORE.md"])
def test_a_file_that_is_not_there_is_told(repository, named):
    replace(repository / "docs/STATEMENT.md", "## Sizes\n", f"## Sizes\n\n`{named}`\n")
    assert tell(repository, "--check") == ([f"docs/STATEMENT.md: no such file: {named}"], 1)


def test_the_reading_order_names_files_that_are_listed(repository):
    replace(repository / "docs/STATEMENT.md", "`Headline.antt`, then", "`Report.antt`, then")
    assert tell(repository, "--check") == (["docs/STATEMENT.md: the reading order names Report.antt, which the page doesn't list"], 1)


def test_a_name_that_no_file_defines_is_told(repository):
    replace(repository / "crates/low/specs/Low.antt", "abbrev pub least", "abbrev pub greatest")
    assert tell(repository, "--check") == (["tools/statement.py: low.specs.Low.least: no file of the sources defines it"], 1)


def test_a_clause_that_is_gone_is_told(repository):
    replace(repository / "crates/cli/src/top.rt", "ensures checked_truly", "ensures checked")
    assert tell(repository, "--check") == (["tools/statement.py: crates/cli/src/top.rt: run has no clause checked_truly"], 1)


def test_the_second_page_begins_at_a_definition_that_is_there(repository):
    replace(repository / "crates/cli/specs/Running.antt", "ordered : AnswersOrder words →", "ordered :")
    assert tell(repository, "--check") == (["tools/statement.py: crates/cli/src/top.rt: AnswersOrder is not reached from answered"], 1)


def test_a_page_without_marks_is_told(repository):
    replace(repository / "docs/STATEMENT-REST.md", "<!-- end of clauses -->\n", "")
    assert tell(repository, "--check") == (["tools/statement.py: a page lacks the marks of its clauses"], 1)


def test_crates_may_be_renamed(repository):
    for old, new in (("cli", "command_line"), ("shelf", "files"), ("low", "deep")):
        (repository / "crates" / old).rename(repository / "crates" / new)
        for path in [*repository.glob("crates/**/*.rt"), *repository.glob("crates/**/*.antt")]:
            text = path.read_text(encoding="utf-8").replace(f"Rattle.{old}.", f"Rattle.{new}.").replace(f"use {old}::", f"use {new}::")
            path.write_text(text, encoding="utf-8")
    replace(repository / "docs/STATEMENT.md", "`crates/low/specs/Low.antt`.", "`crates/deep/specs/Low.antt`.")
    assert tell(repository, "--check")[1] == 1
    assert tell(repository, "--fix") == ([], 0)
    assert tell(repository, "--check") == ([], 0)
    assert "| 8 | `ChecksTruly` | it checks truly |" in (repository / "docs/STATEMENT.md").read_text(encoding="utf-8")


def test_no_two_definitions_of_the_first_page_have_one_name():
    names = rows((TOP / "docs/STATEMENT.md").read_text(encoding="utf-8"))
    assert len(names) == len(set(names)) > 300
