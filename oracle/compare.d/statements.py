"""States answers as equations about the definitions of crates/spec_format and crates/spec_lines, and lets antt compute them.

Each statement is closed by `refl`, so antt accepts it exactly if the definition computes to the answer. The statements stand in
throw-away crates above a copy of both, in a temporary folder.
"""
import concurrent.futures
import os
import pathlib
import re
import shutil
import subprocess

import tables

REPOSITORY = pathlib.Path(__file__).resolve().parent.parent.parent
SIZE = 400  # statements in one crate

LIBRARY = """#![tactic(auto)]

ghost use Rattle.std.specs.Prelude.{◌≡◌};

pub fn one() -> u8
    ensures { result ≡ 1 }
{
    1
}
"""

OPENING = """-- Answers that the definitions must compute.
use Rattle.std.specs.Prelude.{ℕ, Bool, true, false, ◌≡◌, refl, Option, Some, None, List, [], ◌∷◌, eqb}
use Rattle.spec_format.specs.Bytes.{bytes, May, absent, is, pick, same, among}
use Rattle.spec_format.specs.Table.{Locus, Source, Reference, Qualifier, LocationRow, Feature, Contig, Table}
use Rattle.spec_format.specs.Record.{Outcome, was_read, not_read}
use Rattle.spec_format.specs.Numbers.{unread_number, unread_place}
use Rattle.spec_format.specs.declared.ReadAnswer.TheVariants as answer
use Rattle.spec_format.specs.declared.Sizes.{Sizes}
use Rattle.spec_lines.specs.declared.Spot.{Spot}
%s
-- a refusal: its number and what is returned with it
abbrev refusal : ℕ → Outcome → List ℕ
refusal at (was_read t r) = []
refusal at (not_read u) = unread_number u ∷ unread_place u at ∷ []

-- the same with the line and the offset of its first byte; of a record that is read it is 6, with the sizes
abbrev spotted : Spot → List ℕ → List ℕ
spotted p more = p.line ∷ p.offset ∷ more

abbrev sized : Sizes → List ℕ
sized n = n.texts ∷ n.references ∷ n.comments ∷ n.features ∷ n.qualifiers ∷ n.locations ∷ n.letters ∷ []

abbrev lined : List ℕ → ℕ → Outcome → List ℕ
lined s at (was_read t r) = 6 ∷ at ∷ spotted (Troubles.read_spot s at (answer.Room (Rooms.sizes t))) (sized (Rooms.sizes t))
lined s at (not_read u) = unread_number u ∷ unread_place u at ∷ spotted (Troubles.read_spot s at (answer.Refused u)) []

-- refused with one of these numbers and the place given
abbrev refused_by : List (List ℕ) → ℕ → Outcome → Bool
refused_by numbers at (was_read t r) = false
refused_by numbers at (not_read u) = pick (eqb (unread_place u at) at) (among (unread_number u ∷ []) numbers) false

-- both writers' numbers and the bytes, for a table that lies in rooms, its location rows right or wrong: `plain_answer` and `keeping_answer` with room enough
pub data Written : Type 0 where
  refused : ℕ → Written
  wrote : ℕ → List ℕ → Written

abbrev written_from : ℕ → Bool → Bool → Table → Written
written_from w truncate escape t =
  pick (WellFormed.well_formed w truncate escape t)
  (wrote (pick (Keeping.keeps w truncate escape t) 0 13) (Write.written w truncate escape t)) (refused 11)

abbrev writing : ℕ → Bool → Bool → Table → Written
writing w truncate escape t =
  pick (Rooms.rooms_fine (Rooms.layout t) (Rooms.head_of t)) (written_from w truncate escape (Rooms.table_of (Rooms.layout t) (Rooms.head_of t))) (refused 10)
"""


# ---- what can be stated

def location(contig, text, found):
    """The reading of a location's text: rows, or "none", or "deep"."""
    answer = {"none": "Location.none", "deep": "Location.too_deep"}[found] if isinstance(found, str) else "Location.one %s" % tables.antt_rows(found)
    return "Location.reading %s %s ≡ %s" % (tables.antt_bool(contig), tables.antt_bytes(text), answer)


def _reading(strict, data, at):
    return "(Strict.read_by %s %s %d)" % (tables.antt_bool(strict), tables.antt_bytes(data), at)


def reads(strict, data, at, table, place):
    return "%s ≡ was_read %s %s" % (_reading(strict, data, at), tables.antt_table(table), tables.antt_bytes(data[place:]))


def refuses(strict, data, at, number, place):
    return "refusal %d %s ≡ %d ∷ %d ∷ []" % (at, _reading(strict, data, at), number, place)


def refuses_in(strict, data, at, number, place, line, offset, sizes=()):
    """A refusal with its line and offset, and with 6 the sizes."""
    listed = "".join("%d ∷ " % n for n in [number, place, line, offset, *sizes])
    return "lined %s %d %s ≡ %s[]" % (tables.antt_bytes(data), at, _reading(strict, data, at), listed)


def refuses_by(strict, data, at, numbers):
    listed = "".join("(%d ∷ []) ∷ " % n for n in numbers)
    return "refused_by (%s[]) %d %s ≡ true" % (listed, at, _reading(strict, data, at))


def _writing(width, truncate, escape, table):
    return "writing %d %s %s %s" % (width, tables.antt_bool(truncate), tables.antt_bool(escape), tables.antt_table(table))


def writes(width, truncate, escape, table, keeping, data):
    return "%s ≡ wrote %d %s" % (_writing(width, truncate, escape, table), keeping, tables.antt_bytes(data))


def writes_not(width, truncate, escape, table, number):
    return "%s ≡ refused %d" % (_writing(width, truncate, escape, table), number)


# ---- the definitions

def _needed():
    """`spec_lines`, `spec_format` and what these stand on, each with its line of crates.txt."""
    lines = {}
    for line in (REPOSITORY / "crates.txt").read_text().splitlines():
        name, colon, rest = line.split("#")[0].partition(":")
        if colon:
            lines[name.strip()] = rest
    wanted, found = ["spec_format", "spec_lines"], {}
    while wanted:
        name = wanted.pop()
        if name not in found:
            found[name] = lines[name]
            wanted += lines[name].replace(",", " ").split()
    return {name: rest for name, rest in lines.items() if name in found}


def _unfoldable():
    """What must be unfolded for the definitions below to compute: all that can be, in their modules and those they use. Of each its crate, and its name after its module's."""
    wanted, texts = [("spec_format", "Answers"), ("spec_lines", "Troubles")], {}
    while wanted:
        crate, module = wanted.pop()
        path = REPOSITORY / "crates" / crate / "specs" / (module + ".antt")
        if (crate, module) not in texts and path.exists():
            texts[crate, module] = path.read_text()
            wanted += re.findall(r"^use Rattle\.(\w+)\.specs\.(\w+)", texts[crate, module], re.M)
    return [(c, "%s.%s" % (m, n)) for (c, m), text in sorted(texts.items()) for n in re.findall(r"^\s*unfoldable pub (\S+)", text, re.M)]


def _short(says):
    """Of what antt says, the part about the computed answers."""
    start = says.find("computed as far as they go")
    return says[max(start, 0):].split("\n  expected type")[0]


class Prover:
    def __init__(self, folder):
        self.folder = pathlib.Path(folder)
        self.needed = _needed()
        self.names = _unfoldable()
        for name in self.needed:
            shutil.copytree(REPOSITORY / "crates" / name, self.folder / "crates" / name, ignore=shutil.ignore_patterns("out"))
        self.made = 0

    def _write_crate(self, name, statements):
        """A crate with these statements; the first line of each."""
        crate = self.folder / "crates" / name
        for part in ("src", "specs"):
            (crate / part).mkdir(parents=True, exist_ok=True)
        (crate / "src" / "lib.rt").write_text(LIBRARY)
        (crate / "specs" / "Lib.antt").write_text("pub mod Held\n")
        modules = sorted({(c, n.split(".")[0]) for c, n in self.names})
        text = [OPENING % "".join("use Rattle.%s.specs.%s as %s\n" % (c, m, m) for c, m in modules)]
        names = " ".join(n for _, n in self.names)
        for i, statement in statements:
            text.append("case%d : %s\nunfolding %s\ncase%d = refl\n" % (i, statement, names, i))
        (crate / "specs" / "Held.antt").write_text("\n".join(text))

    def _said(self, name):
        """What `rt check` says of a crate."""
        return subprocess.run(["rt", "check"], cwd=self.folder / "crates" / name, stdout=subprocess.PIPE, stderr=subprocess.STDOUT, text=True).stdout

    def _check(self, crates):
        """What it says of each of these. The first is checked by itself, since that proves what they stand on."""
        below = " ".join(sorted({c for c, _ in self.names}))
        listed = ["%s:%s" % item for item in self.needed.items()] + ["%s: %s" % (name, below) for name in crates]
        (self.folder / "crates.txt").write_text("\n".join(listed) + "\n")
        first, *others = crates
        said = {first: self._said(first)}
        with concurrent.futures.ThreadPoolExecutor(max(1, len(os.sched_getaffinity(0)) // 2)) as pool:
            said.update(zip(others, pool.map(self._said, others)))
        return said

    def wrong(self, statements):
        """The statements that do not hold: number and what antt says."""
        found = {}
        todo = list(enumerate(statements))
        while todo:
            crates = {}
            for start in range(0, len(todo), SIZE):
                self.made += 1
                crates["held%d" % self.made] = todo[start:start + SIZE]
            for name, part in crates.items():
                self._write_crate(name, part)
            said = self._check(crates)
            again = []
            for name, part in crates.items():
                new = {int(m[1]): _short(m[2]) for m in re.finditer(r"error: `case(\d+)`: (.*(?:\n  .*)*)", said[name])}
                if not new and not re.search(r"^logic=proved", said[name], re.M):
                    raise RuntimeError("antt did not check the statements:\n" + said[name][-3000:])
                if new:  # once more without them, until all that is left is proved
                    again += [(i, s) for i, s in part if i not in new]
                found.update(new)
                shutil.rmtree(self.folder / "crates" / name)
            todo = again
        return found
