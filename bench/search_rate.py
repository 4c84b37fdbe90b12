#!/usr/bin/env python3
"""Searches per second over a real folder, beside the bare `stat` calls that they cannot do without.

Makes two folders: 64 path entries with 500 modules in the last one, and one entry with 5,000 modules. A small program
beside the crates searches each module by `Look`, over a tree of the system's files, with the listings kept as the import
machine keeps them; after a first round no directory is listed. Then it asks the system for the same paths alone: each
entry up to the one that decides, and the module's file. Copies the crates into a scratch repository and builds the
program there with `rt run` (which proves the crates, some ten minutes on a new machine).
"""
import pathlib
import subprocess
import sys
import tempfile

import scratch

PROGRAM = r"""//! Measures the search.
#![tactic(auto)]

ghost use Rattle.std.specs.Prelude.{◌≡◌, IfOk, IfSome};
ghost use Rattle.path_finder.specs.Looking.{input_kind, want_kind};

use base_types::{Exact, Listing, NoMemory, Text, Texts, TreePath};
use path_finder::{Look, LookIn, LookWant, Probe};
use py_value::{Items, Value};
use spec_core::Dotted;
use std::alloc::Global;
use std::collections::BTreeMap;
use std::rt::Files;
use std::time::Instant;
use std::{env, fs, io};
use system_edge::RealTree;
use tree_files::{Tree, TreeFault};

/// The kept listings.
type Kept = BTreeMap<TreePath, Listing>;

fn has(names: &Texts, name: &Text) -> bool {
    names.as_slice().binary_search(name).is_ok()
}

/// What the kept listing of a directory says of a name.
fn probe(kept: &Kept, dir: &TreePath, part: &Text) -> Result<Option<Probe>, NoMemory> {
    match kept.get(dir) {
        None => Ok(None),
        Some(listing) => {
            let mut file = part.copy()?;
            file.push_str(".py")?;
            Ok(Some(Probe {
                time: listing.time,
                bare: has(&listing.names, part),
                file: has(&listing.names, &file),
            }))
        }
    }
}

/// The input that a want asks for, if the search is not over.
fn answer(kept: &mut Kept, want: LookWant) -> Result<Option<LookIn>, NoMemory>
    ensures { IfOk result (λ it. IfSome it (λ input. input_kind input ≡ want_kind want)) }
{
    match want {
        LookWant::Pay { tree: _ } => Ok(Some(LookIn::Paid)),
        LookWant::DirGet { dir, part } => Ok(Some(LookIn::Listed(probe(kept, &dir, &part)?))),
        LookWant::DirSet { dir, listing } => {
            kept.insert(dir, listing)?;
            Ok(Some(LookIn::Kept))
        }
        LookWant::Done(_) => Ok(None),
    }
}

fn is_found(want: &LookWant) -> bool {
    matches!(want, LookWant::Done(Some(_)))
}

/// Whether the name is found on the path.
fn find<T: Tree>(tree: &mut T, kept: &mut Kept, path: &Items, name: &Text) -> Result<bool, TreeFault> {
    let Some(name) = Dotted::read(name)? else {
        return Ok(false);
    };
    let mut look = Look::start(name, path.copy()?)?;
    let mut input = LookIn::Start;
    for _ in 0..1000 {
        let want = look.next(tree, input)?;
        let found = is_found(&want);
        match answer(kept, want)? {
            Some(next) => input = next,
            None => return Ok(found),
        }
    }
    Ok(false)
}

/// How many of the names are found.
fn find_all<T: Tree>(tree: &mut T, kept: &mut Kept, path: &Items, names: &Texts) -> Result<u64, TreeFault> {
    let mut found = 0_u64;
    for name in names.as_slice() {
        if find(tree, kept, path, name)? {
            found = found.wrapping_add(1);
        }
    }
    Ok(found)
}

/// How many of the entries and files the system knows, where all entries are asked for before each file.
fn stat_all<R: Files>(rt: &R, entries: &Texts, files: &Texts) -> u64 {
    let mut known = 0_u64;
    for file in files.as_slice() {
        for entry in entries.as_slice() {
            if fs::metadata(rt, entry.as_str()).is_ok() {
                known = known.wrapping_add(1);
            }
        }
        if fs::metadata(rt, file.as_str()).is_ok() {
            known = known.wrapping_add(1);
        }
    }
    known
}

/// Texts that differ in a number.
fn numbered(alloc: Global, front: &str, count: u32, back: &str) -> Result<Texts, NoMemory> {
    let mut texts = Texts::new(alloc);
    for i in 0..count {
        texts.push(Text::from_string(format!(in alloc; "{front}{i}{back}")?))?;
    }
    Ok(texts)
}

fn path_of(entries: &Texts) -> Result<Items, NoMemory> {
    let mut path = Items::new(entries.alloc());
    for entry in entries.as_slice() {
        path.push(Value::Text(entry.copy()?))?;
    }
    Ok(path)
}

/// The best of several rounds of searches, and of the calls of the system.
fn measured(rt: &HostRuntime, entries: &Texts, names: &Texts, files: &Texts) -> io::Result<()> {
    let mut tree = RealTree::at(*rt, Text::new(rt.alloc()));
    let mut kept = BTreeMap::new(rt.alloc());
    let Ok(path) = path_of(entries) else {
        return Ok(());
    };
    let mut searches = u128::MAX;
    let mut stats = u128::MAX;
    let mut found = 0;
    let mut known = 0;
    for _ in 0..8 {
        let start = Instant::now(rt)?;
        if let Ok(count) = find_all(&mut tree, &mut kept, &path, names) {
            found = count;
        }
        searches = searches.min(start.elapsed(rt)?.as_nanos());
        let start = Instant::now(rt)?;
        known = stat_all(rt, entries, files);
        stats = stats.min(start.elapsed(rt)?.as_nanos());
    }
    println!(rt; "{found} {searches} {known} {stats}")
}

fn main(rt: HostRuntime) -> io::Result<()> {
    let mut counts = [0, 0];
    for (at, word) in env::args(&rt)?.skip(1).take(2).enumerate() {
        if let Ok(n) = word.parse::<u32>() {
            if at < 2 {
                counts[at] = n;
            }
        }
    }
    let alloc = rt.alloc();
    let last = format!(in alloc; "e{}/m", counts[0].saturating_sub(1))?;
    if let Ok(entries) = numbered(alloc, "e", counts[0], "") {
        if let Ok(names) = numbered(alloc, "m", counts[1], "") {
            if let Ok(files) = numbered(alloc, last.as_str(), counts[1], ".py") {
                measured(&rt, &entries, &names, &files)?;
            }
        }
    }
    Ok(())
}
"""

INVARIANTS = """use Rattle.std.proofs.Common.{◌≡◌}
use Rattle.std.specs.Option.{ForSome}
use Rattle.path_finder.specs.Looking.{awaits, input_kind, Suits}
use Rattle.search_rate.proofs.find.Given as goal

abbrev pub invariant-loop : goal.invariant-loop
invariant-loop g l = record {
  fits : awaits l.look.stage ≡ input_kind l.input;
  suits : ForSome (g.T.Tree.files l.tree) (λ f. Suits l.look.stage f);
}
"""


def make_folder(top, entries, modules):
    """So many path entries, with so many modules in the last one."""
    for i in range(entries):
        (top / f"e{i}").mkdir(parents=True)
    for k in range(modules):
        (top / f"e{entries - 1}" / f"m{k}.py").write_text("x = 1\n")


def main():
    with tempfile.TemporaryDirectory() as folder:
        folder = pathlib.Path(folder)
        proofs = {"proofs/find/Invariants.antt": INVARIANTS}
        crate, _ = scratch.run(folder, "search_rate", PROGRAM, ["path_finder", "tree_system"], proofs)
        program = crate / "out" / "search_rate"
        for entries, modules in ((64, 500), (1, 5000)):
            searched = folder / f"folder_{entries}"
            make_folder(searched, entries, modules)
            words = subprocess.run([program, str(entries), str(modules)], cwd=searched, capture_output=True, text=True, check=True)
            found, searches, known, stats = (int(word) for word in words.stdout.split())
            if found != modules or known != modules * (entries + 1):
                sys.exit(f"{found} of {modules} modules were found, {known} paths are known")
            print(
                f"{modules} modules at the end of {entries} entries: {found / (searches / 1e9):.0f} searches/s; "
                f"{entries + 1} bare stat calls for each: {modules / (stats / 1e9):.0f}/s"
            )


if __name__ == "__main__":
    main()
