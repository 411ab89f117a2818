#!/bin/sh
# Times `separate` and `rounded` of crates/clique_cuts at points of a thousand patterns in halves, in one run:
# `separate` where nothing is broken, and where one course of a hundred has three halves that clash in pairs;
# `rounded` against a best value that nothing exceeds, so that it seeks in both its ways and tests both. Prints
# processor time, and what part of building the model each is.
# It builds a small program beside copies of the crates, in a folder of its own, and runs it; the first time
# that proves the crates, which takes minutes.
# Usage: bench/cuts.sh (rt must be on the PATH)
set -eu
top=$(cd "$(dirname "$0")/.." && pwd)
work=$(mktemp -d)
trap 'rm -rf "$work"' EXIT
bench="$work/crates/cuts_bench"
mkdir -p "$bench/src" "$bench/specs" "$bench/proofs/are_rising" "$bench/proofs/are_known" "$bench/proofs/are_parts"
for name in values numbers duality problem_core meeting_patterns packing_model search_nodes clique_cuts; do
    mkdir "$work/crates/$name"
    for part in src specs proofs; do
        [ ! -d "$top/crates/$name/$part" ] || cp -r "$top/crates/$name/$part" "$work/crates/$name/"
    done
    grep "^$name:" "$top/crates.txt" >>"$work/crates.txt"
done
echo 'cuts_bench: values problem_core meeting_patterns packing_model search_nodes clique_cuts' >>"$work/crates.txt"
: >"$bench/specs/Lib.antt"
: >"$bench/proofs/Lib.antt"
cat >"$bench/src/main.rt" <<'PROGRAM'
#![tactic(auto)]

ghost use Rattle.std.specs.Prelude.{◌≡◌, ◌<◌, ℕ, ℤ, nat_lt, length, map, IfOk};
ghost use Rattle.std.specs.List.{list_all};
ghost use Rattle.meeting_patterns.specs.Pattern.{patterns_of};
ghost use Rattle.packing_model.specs.Built.{packing};
ghost use Rattle.packing_model.specs.Rising.{is_rising, rises_from};
ghost use Rattle.search_nodes.specs.Points.{IsPointOf, is_part};

use clique_cuts::{rounded, separate};
use packing_model::{Fixing, Measured, Model, ObjectiveAt, Point, Pool};
use problem_core::{BuildFault, EventPart, Memory, Parts, Problem};
use std::alloc::Global;
use std::io;
use std::rt::CpuClock;
use std::time::Duration;
use values::Items;

const COURSES: u32 = 100;
const MEETINGS: u32 = 5;
const ROOMS: u32 = 20;
const SLOTS: u32 = 60;
const MASKS: u32 = 31;

/// The slot of a course's meeting: the meetings go round the slots, so at most nine have one.
fn slot_of(course: u32, meeting: u32) -> u32 {
    course.wrapping_mul(MEETINGS).wrapping_add(meeting) % SLOTS
}

fn events(alloc: Global) -> Result<Items<EventPart>, Memory> {
    let mut events = Items::new(alloc);
    for course in 0..COURSES {
        for meeting in 0..MEETINGS {
            events.push(EventPart {
                course,
                slot: slot_of(course, meeting),
                length: 1,
            })?;
        }
    }
    Ok(events)
}

fn parts(alloc: Global) -> Result<Parts, Memory> {
    Ok(Parts {
        students: vec![in alloc; 10; COURSES as usize]?.into(),
        needs: vec![in alloc; 0; COURSES as usize]?.into(),
        capacity: vec![in alloc; 20; ROOMS as usize]?.into(),
        features: vec![in alloc; 0; ROOMS as usize]?.into(),
        slots: SLOTS,
        events: events(alloc)?,
        denied: Items::new(alloc),
        closed: Items::new(alloc),
        prefer: Items::new(alloc),
        robust: Items::new(alloc),
    })
}

fn model(alloc: Global) -> Result<Model, BuildFault> {
    let parts = parts(alloc)?;
    if !parts.well_formed() {
        return Err(BuildFault::Memory);
    }
    Model::build(alloc, Problem::build(alloc, parts)?)
}

fn pattern(course: u32, room: u32, mask: u32) -> u32 {
    course
        .wrapping_mul(ROOMS)
        .wrapping_add(room)
        .wrapping_mul(MASKS)
        .wrapping_add(mask)
        .wrapping_sub(1)
}

/// Half of each meeting in each of two rooms, which no other meeting of its slot or of its course has.
fn add_meetings(patterns: &mut Items<u32>, course: u32, first: u32) -> Result<(), Memory> {
    for meeting in first..MEETINGS {
        let turn = course.wrapping_mul(MEETINGS).wrapping_add(meeting) / SLOTS;
        let room = turn.wrapping_mul(2).wrapping_add(meeting.wrapping_mul(4)) % ROOMS;
        patterns.push(pattern(course, room, 1 << (meeting & 7)))?;
        patterns.push(pattern(course, room.wrapping_add(1), 1 << (meeting & 7)))?;
    }
    Ok(())
}

/// The patterns, in order; where it is asked for, the last course has three of two meetings that clash.
fn patterns(alloc: Global, broken: bool) -> Result<Vec<u32>, Memory> {
    let mut patterns = Items::new(alloc);
    for course in 0..COURSES {
        let last = broken && course + 1 == COURSES;
        if last {
            patterns.push(pattern(course, 18, 3))?;
            patterns.push(pattern(course, 19, 6))?;
            patterns.push(pattern(course, 17, 5))?;
        }
        add_meetings(&mut patterns, course, if last { 3 } else { 0 })?;
    }
    let mut patterns = patterns.into_vec();
    patterns.sort()?;
    Ok(patterns)
}

fn halves(alloc: Global, patterns: &[u32]) -> Result<Items<(u32, i128)>, Memory> {
    let mut entries = Items::new(alloc);
    for pattern in patterns {
        entries.push((*pattern, 1))?;
    }
    Ok(entries)
}

fn are_rising(entries: &[(u32, i128)]) -> bool
    ensures { result ≡ is_rising (map (λ (e : ℕ × ℤ). e.0) entries.now) }
{
    let Some((first, rest)) = entries.split_first() else {
        return true;
    };
    let mut last = first.0;
    for entry in rest {
        if entry.0 <= last {
            return false;
        }
        last = entry.0;
    }
    true
}

fn are_known(model: &Model, entries: &[(u32, i128)]) -> bool
    ensures { result ≡ list_all (λ (e : ℕ × ℤ). nat_lt e.0 (packing model.now).count) entries.now }
{
    let count = model.patterns().len();
    for entry in entries {
        if entry.0 >= count {
            return false;
        }
    }
    true
}

fn are_parts(den: i128, entries: &[(u32, i128)]) -> bool
    ensures { result ≡ list_all (is_part den) entries.now }
{
    for entry in entries {
        if !is_part(den, *entry) {
            return false;
        }
    }
    true
}

fn is_part(den: i128, entry: (u32, i128)) -> bool
    ensures { result ≡ is_part den entry }
{
    0 < entry.1 && entry.1 <= den
}

/// The point of halves.
fn point(alloc: Global, model: &Model, broken: bool) -> Result<Option<Point>, Memory>
    ensures { IfOk result (λ found. MatchOption found (Unit {0}) (λ x. IsPointOf (packing model.now) x)) }
{
    let entries = halves(alloc, &patterns(alloc, broken)?)?;
    let known = are_known(model, entries.as_slice());
    if known && are_rising(entries.as_slice()) && are_parts(2, entries.as_slice()) {
        return Ok(Some(Point { den: 2, entries }));
    }
    Ok(None)
}

/// The size of the cut that the point breaks, 0 where there is none.
fn cut_size(alloc: Global, model: &Model, broken: bool) -> Result<usize, Memory> {
    let Some(point) = point(alloc, model, broken)? else {
        return Ok(1);
    };
    match separate(alloc, model, &point)? {
        Some(cut) => Ok(cut.patterns().len()),
        None => Ok(0),
    }
}

/// How many better choices the point is rounded to at the first level, where none has more.
fn rounded_count(alloc: Global, model: &Model) -> Result<usize, Memory> {
    let Some(point) = point(alloc, model, false)? else {
        return Ok(2);
    };
    let pool = Pool::new(alloc);
    let fixing = Fixing::empty(alloc);
    let objective = Measured::new(model);
    let at = ObjectiveAt {
        model,
        pool: &pool,
        fixing: &fixing,
        objective: &objective,
        level: 1,
        targets: &[],
        best: Some(4_000),
    };
    match rounded(alloc, &at, &point)? {
        Some(_) => Ok(1),
        None => Ok(0),
    }
}

fn thousandths(part: Duration, whole: Duration) -> u128 {
    part.as_nanos().saturating_mul(1_000) / whole.as_nanos().max(1)
}

fn time(rt: &HostRuntime, name: &str, model: &Model, broken: bool, built: Duration) -> io::Result<()> {
    let start = rt.thread_cpu_time()?;
    let size = cut_size(rt.alloc(), model, broken).unwrap_or(1);
    let took = rt.thread_cpu_time()?.saturating_sub(start);
    let micros = took.as_micros();
    let ratio = thousandths(took, built);
    println!(rt; "  {name}: {micros} us, {ratio} thousandths of building the model, a cut of {size}")
}

fn time_rounding(rt: &HostRuntime, model: &Model, built: Duration) -> io::Result<()> {
    let start = rt.thread_cpu_time()?;
    let count = rounded_count(rt.alloc(), model).unwrap_or(2);
    let took = rt.thread_cpu_time()?.saturating_sub(start);
    let micros = took.as_micros();
    let ratio = thousandths(took, built);
    println!(rt; "  rounded: {micros} us, {ratio} thousandths of building the model, {count} better")
}

fn main(rt: HostRuntime) -> io::Result<()> {
    let start = rt.thread_cpu_time()?;
    let Ok(model) = model(rt.alloc()) else {
        return println!(rt; "  no model");
    };
    let built = rt.thread_cpu_time()?.saturating_sub(start);
    let count = model.patterns().len();
    let micros = built.as_micros();
    println!(rt; "  model of {count} patterns: {micros} us")?;
    time(&rt, "nothing is broken", &model, false, built)?;
    time(&rt, "one course is broken", &model, true, built)?;
    time_rounding(&rt, &model, built)
}
PROGRAM
sed -i 's/map, IfOk}/map, IfOk, MatchOption}/' "$bench/src/main.rt"
for name in are_rising are_known are_parts; do
    sed 's/worked_cases.proofs.points/cuts_bench.proofs/' "$top/crates/worked_cases/proofs/points/$name/Invariants.antt" >"$bench/proofs/$name/Invariants.antt"
done
cd "$bench"
rt run >"$work/log" 2>&1 || { cat "$work/log"; exit 1; }
grep '^  ' "$work/log"
