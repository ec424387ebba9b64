#!/usr/bin/env python3
"""Shows that an index cannot be changed while a search looks at it: three misuses that do not compile.

    bench/misuses.py

It copies the repository's crates into a new folder and gives the copy of `tests_ranking` three tests: each makes an
index, prepares a change of it, lets a `Snapshot`, `Rules` over one, or a `HitStream` over these look at it, and then
makes the change. As they stand, `rt try --test` compiles and runs them. Then in each of them in turn the change is made
before the last use of what looks at the index, and nothing else is touched: `rt try --test` must refuse that line,
since the index is borrowed, and no other. The repository itself stays as it is. It takes some minutes, and ends with
status 1 if something is wrong.
"""
import pathlib
import re
import shutil
import subprocess
import sys
import tempfile

REPOSITORY = pathlib.Path(__file__).resolve().parent.parent
CRATE = "tests_ranking"

CHANGES = """
impl Shelf {
    // An empty change of the index, with all memory that it needs.
    pub(crate) fn prepared(&mut self, rt: &impl Abort, alloc: Global) -> PreparedRows {
        self.index.prepare(alloc, RowChange::new(alloc)).expect(rt, "memory")
    }

    pub(crate) fn commit(&mut self, prepared: PreparedRows) {
        self.index.commit(prepared);
    }
}
"""

LOOKERS = """
use crate::costs::{graph, rows};
use crate::shelves::{Shelf, make_shelf};
use bucket_sort::{BucketLog, HitStream, RecordLog};
use doc_search::{IndexedRows, Snapshot};
use rule_buckets::Rules;
use search_base::{Rule, Steps};
use std::alloc::Global;
use std::process::Abort;

struct Counted;

fn shelf(rt: &impl Abort, alloc: Global) -> Shelf {
    let mut all = Vec::new(alloc);
    all.push(rows(rt, alloc, "knight/1999")).expect(rt, "memory");
    make_shelf(rt, alloc, all)
}

#[test]
fn snapshot_looks(rt: HostRuntime) {
    let alloc = rt.alloc();
    let mut shelf = shelf(&rt, alloc);
    let prepared = shelf.prepared(&rt, alloc);
    let snapshot = Snapshot::new(&shelf);
    // early snapshot
    assert!(rt; snapshot.rows().rank_count() == 8);
    // late snapshot
}

#[test]
fn rules_look(rt: HostRuntime) {
    let alloc = rt.alloc();
    let mut shelf = shelf(&rt, alloc);
    let prepared = shelf.prepared(&rt, alloc);
    let universe = shelf.index().ids().clone().expect(&rt, "memory");
    let query = graph(&rt, alloc, "");
    let list = [Rule::Words];
    let snapshot = Snapshot::new(&shelf);
    let rules = Rules::new(alloc, &snapshot, &query, &list, &universe).expect(&rt, "memory");
    // early rules
    assert!(rt; rules.matching().len() == 1);
    // late rules
}

#[test]
fn hits_look(rt: HostRuntime) {
    let alloc = rt.alloc();
    let mut shelf = shelf(&rt, alloc);
    let prepared = shelf.prepared(&rt, alloc);
    let universe = shelf.index().ids().clone().expect(&rt, "memory");
    let query = graph(&rt, alloc, "");
    let list = [Rule::Words];
    let log = Box::new(alloc, RecordLog::new(alloc)).expect(&rt, "memory");
    let mut log: Box<dyn BucketLog> = log;
    let mut openings: Steps<Counted> = Steps::new();
    let snapshot = Snapshot::new(&shelf);
    let rules = Rules::new(alloc, &snapshot, &query, &list, &universe).expect(&rt, "memory");
    let mut hits = HitStream::new(alloc, &rules, universe, 0, 1).expect(&rt, "memory");
    // early hits
    let hit = hits.next_hit(alloc, &mut log, &mut openings).expect(&rt, "memory");
    assert!(rt; hit.is_some());
    drop(hits);
    // late hits
}
"""

CHANGE = "shelf.commit(prepared);"
# What looks at the index in each test, by the word of its two marks.
KINDS = {"snapshot": "a Snapshot looks", "rules": "Rules look", "hits": "a HitStream looks"}


def text_with(early):
    """The tests, in which this kind's change is made early, and each other late."""
    def made(found):
        moment, kind = found.groups()
        return CHANGE if (moment == "early") == (kind == early) else found.group()
    return re.sub(r"// (early|late) (\w+)", made, LOOKERS)


def replace(file, old, new):
    text = file.read_text()
    if text.count(old) != 1:
        sys.exit(f"{file.name} does not have {old!r} once")
    file.write_text(text.replace(old, new))


def copied(folder):
    """A copy of the crates, with room for the three tests."""
    shutil.copytree(REPOSITORY / "crates", folder / "crates", ignore=shutil.ignore_patterns("out", "must-fail"))
    for name in ("crates.txt", "HANDLES"):
        shutil.copy(REPOSITORY / name, folder)
    subprocess.run(["git", "init", "-q", folder], check=True)
    crate = folder / "crates" / CRATE
    shelves = crate / "src" / "shelves.rt"
    replace(shelves, "use row_index::{RowChange, RowIndex};", "use row_index::{PreparedRows, RowChange, RowIndex};")
    shelves.write_text(shelves.read_text() + CHANGES)
    module = "#[cfg(test)]\nmod shelves;"
    replace(crate / "src" / "lib.rt", module, f"#[cfg(test)]\nmod looking;\n{module}")
    return crate


def tried(crate, text):
    """The status and the lines of a try of the crate with these tests."""
    (crate / "src" / "looking.rt").write_text(text)
    done = subprocess.run(["rt", "try", "--test"], cwd=crate, stdin=subprocess.DEVNULL, stdout=subprocess.PIPE,
                          stderr=subprocess.STDOUT, text=True, errors="replace")
    return done.returncode, done.stdout.splitlines()


def refusal(kind):
    """How the one error of this misuse begins."""
    before = LOOKERS[:LOOKERS.index(f"// early {kind}")]
    return f"src/looking.rt:{before.count(chr(10)) + 1}:5: error[borrow-e0502]: cannot borrow `shelf` as mutable"


def is_refused(crate, kind):
    status, lines = tried(crate, text_with(kind))
    errors = [line for line in lines if ": error" in line]
    holds = status == 1 and len(errors) == 1 and errors[0].startswith(refusal(kind))
    told = f"refused, {errors[0]}" if holds else "\n".join(["NOT refused as it must be", *lines])
    print(f"a change while {KINDS[kind]}: {told}", flush=True)
    return holds


def are_taken(crate):
    status, lines = tried(crate, text_with(None))
    passed = sum(line.startswith("test looking::") and line.endswith(" ... ok") for line in lines)
    holds = status == 0 and passed == len(KINDS)
    told = f"taken, {passed} tests pass" if holds else "\n".join(["NOT taken", *lines])
    print(f"the three changes behind the last use: {told}", flush=True)
    return holds


def main():
    with tempfile.TemporaryDirectory(prefix="misuses-") as name:
        crate = copied(pathlib.Path(name))
        holds = [is_refused(crate, kind) for kind in KINDS] + [are_taken(crate)]
    if not all(holds):
        sys.exit("something is wrong")


if __name__ == "__main__":
    main()
