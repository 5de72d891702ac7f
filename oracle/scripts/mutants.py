#!/usr/bin/env python3
"""Breaks the original in one place at a time, in a temporary copy, and runs `fuzz claims` on it.

Shows which claims notice. Run from anywhere; needs cargo, and SYMBOLIC_SRC. A mutant that no claim speaks of isn't
noticed, as "no bare minimum" (addresses of a root outside its lines); only equal bytes show it.
With the word `answers` it runs `answers check answers` instead: the stored answers must notice all.
With the word `compare` it runs `compare 20000 1`, the proved library beside the broken original: that must notice all
(SYMCACHE_LIB_DIR names the library's folder). Another word picks the mutants whose name has it.
"""
import collections
import os
import pathlib
import shutil
import subprocess
import sys
import tempfile

HERE = pathlib.Path(__file__).resolve().parent.parent
SOURCE = pathlib.Path(os.environ["SYMBOLIC_SRC"])
ANSWERS = "answers" in sys.argv[1:]
COMPARE = "compare" in sys.argv[1:]
PICKED = [word for word in sys.argv[1:] if word not in ("answers", "compare")]
W = "symbolic-symcache/src/writer.rs"
L = "symbolic-symcache/src/v9/lookup.rs"
VACANT_END = """if let btree_map::Entry::Vacant(vacant_entry) = self.ranges.entry(function_end) {
                vacant_entry.insert(v9::raw::NO_SOURCE_LOCATION);
            }"""
VACANT_SYMBOL_END = """if let btree_map::Entry::Vacant(vacant_entry) = self.ranges.entry(end_address) {
                    vacant_entry.insert(v9::raw::NO_SOURCE_LOCATION);
                }"""
CALL = "self.call_locations.insert_full(source_location.clone());"
PUSH = "callee_call_locations.push((inline_range.start, call_location_idx as u32));"
MUTANTS = [
    ("no empty mapping at function end", W, VACANT_END, ""),
    ("function end overwrites", W, VACANT_END,
     "self.ranges.insert(function_end, v9::raw::NO_SOURCE_LOCATION);"),
    ("symbol replaces a location", W,
     ".is_none_or(|sl| *sl == v9::raw::NO_SOURCE_LOCATION)", ".is_none_or(|_| true)"),
    ("no bare minimum at entry", W,
     "            if !function.inline {\n                // add",
     "            if false {\n                // add"),
    ("walk doesn't go to the inlinee's end", W,
     "current_address = inline_range.end;", "current_address = line_range_end;"),
    ("call location found strictly", W,
     "next_call_location.unwrap().0 <= line_range_start",
     "next_call_location.unwrap().0 < line_range_start"),
    ("caller of a call location lost", W, CALL,
     "self.call_locations.insert_full(v9::raw::SourceLocation {"
     " inlined_into_idx: u32::MAX, ..source_location.clone() });"),
    ("call index one too high", W, PUSH, PUSH.replace("as u32", "as u32 + 1")),
    ("symbol end not put", W, "if symbol.size > 0 {", "if false {"),
    ("symbol end overwrites", W, VACANT_SYMBOL_END,
     "self.ranges.insert(end_address, v9::raw::NO_SOURCE_LOCATION);"),
    ("inlinee ranges not sorted", W,
     "inlinee_ranges.sort_unstable_by_key(|range| range.start);", ""),
    ("last end one too high", W,
     "*last_addr = function_end;", "*last_addr = function_end.saturating_add(1);"),
    ("compilation directory lost", W,
     "comp_dir: comp_dir.map(Into::into),\n                        srcsrv_name",
     "comp_dir: None,\n                        srcsrv_name"),
    ("functions not undecorated", W,
     "let function_name = if self.win_undecorate_function_names {",
     "let function_name = if false {"),
    ("innermost frame only", L,
     "self.source_location_idx = source_location.inlined_into_idx;",
     "self.source_location_idx = u32::MAX;"),
    ("exact hit missed", L,
     "Ok(idx) => source_location_start + idx as u32,",
     "Ok(idx) => source_location_start + (idx as u32).saturating_sub(1),"),
    ("address clamped in the line skip", W,
     ".is_some_and(|next| (next.address as u32) < current_address)",
     ".is_some_and(|next| (next.address.min(u64::from(u32::MAX)) as u32) < current_address)"),
    ("lines of skipped inlinees dropped", W,
     "for inlinee in &function.inlinees {\n                for line",
     "for inlinee in function.inlinees.iter().filter(|f| f.size > 0 && f.address <= u64::from(u32::MAX)) {\n                for line"),
    ("empty mapping later in a chain ends it", L,
     "if !self.visited.insert(self.source_location_idx) {",
     "if *source_location == raw::NO_SOURCE_LOCATION || !self.visited.insert(self.source_location_idx) {"),
]


def compare(top, env):
    """What `compare` finds: its last line, and the first difference, made small."""
    subprocess.run(["cargo", "build", "-q", "-j1", "--release", "-p", "compare", "--bin", "compare"],
                   cwd=top / "oracle", env=env, check=True, stderr=subprocess.DEVNULL)
    run = subprocess.run([top / "target/release/compare", "20000", "1"], capture_output=True, text=True, timeout=600)
    lines = run.stdout.splitlines()
    small = [line for line in lines if line.startswith("made small: ")]
    return run.returncode == 1, lines[-1] if lines else f"status {run.returncode}", small[0][:160] if small else ""


def main():
    noticed = []
    with tempfile.TemporaryDirectory() as top:
        top = pathlib.Path(top)
        shutil.copytree(SOURCE, top / "original")
        shutil.copytree(HERE, top / "oracle", ignore=shutil.ignore_patterns("target"))
        for name in ("rust", "include"):  # the package `compare` rests on the Rust crate
            shutil.copytree(HERE.parent / name, top / name, ignore=shutil.ignore_patterns("target"))
        env = dict(os.environ, CARGO_TARGET_DIR=str(top / "target"), SYMBOLIC_SRC=str(top / "original"))
        for name, path, old, new in MUTANTS:
            if PICKED and not any(word in name for word in PICKED):
                continue
            for other in (W, L):
                shutil.copyfile(SOURCE / other, top / "original" / other)
            text = (SOURCE / path).read_text()
            assert text.count(old) == 1, name
            (top / "original" / path).write_text(text.replace(old, new))
            if COMPARE:
                found, last, small = compare(top, env)
                noticed.append(found)
                print(f"{name}: {last}\n    {small}", flush=True)
                continue
            subprocess.run(
                ["cargo", "build", "-q", "-j1", "--profile", "checked", "--bin", "answers" if ANSWERS else "fuzz"],
                cwd=top / "oracle", env=env, check=True, stderr=subprocess.DEVNULL)
            if ANSWERS:
                run = subprocess.run([top / "target/checked/answers", "check", HERE / "answers"],
                                     capture_output=True, text=True)
                print(f"{name}: {run.stdout.strip() if run.returncode == 1 else 'status ' + str(run.returncode)}", flush=True)
                continue
            try:
                out = subprocess.run([top / "target/checked/fuzz", "claims", "300", "1"],
                                     capture_output=True, text=True, timeout=60).stdout
            except subprocess.TimeoutExpired as late:
                out = (late.stdout or b"").decode()
            found = collections.Counter(
                line.split(" at ")[0].split("claim ", 1)[1]
                for line in out.splitlines() if line.startswith("  claim "))
            print(f"{name}: {dict(found) or 'not noticed'}", flush=True)
    if COMPARE:
        print(f"{sum(noticed)} of {len(noticed)} noticed")
        sys.exit(not all(noticed))


main()
