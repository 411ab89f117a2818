#!/bin/sh
# Times `bound` of crates/node_bound at roots of three models, in one run: the six levels of the week with five
# rooms of the examples, and the first two levels of 20 courses with four meetings in 5 rooms and of 40 courses
# with five meetings in 10 rooms. At each root the best value of the level is known, so that it closes. Prints
# processor time. With a second argument `perf` it prints also which functions the time goes to.
# It builds a small program beside copies of the crates, in a folder of its own, and runs it; the first time
# that proves the crates, which takes minutes.
# Usage: bench/nodes.sh [perf] (rt must be on the PATH)
set -eu
top=$(cd "$(dirname "$0")/.." && pwd)
work=$(mktemp -d)
trap 'rm -rf "$work"' EXIT
bench="$work/crates/nodes_bench"
mkdir -p "$bench/src" "$bench/specs" "$bench/proofs/are_values" "$bench/proofs/time"
for name in values numbers duality exact_num simplex_tableau exact_simplex problem_core meeting_patterns packing_model search_nodes clique_cuts node_bound; do
    mkdir "$work/crates/$name"
    for part in src specs proofs; do
        [ ! -d "$top/crates/$name/$part" ] || cp -r "$top/crates/$name/$part" "$work/crates/$name/"
    done
    grep "^$name:" "$top/crates.txt" >>"$work/crates.txt"
done
echo 'nodes_bench: values duality exact_num problem_core meeting_patterns packing_model search_nodes node_bound' >>"$work/crates.txt"
: >"$bench/specs/Lib.antt"
: >"$bench/proofs/Lib.antt"
cat >"$bench/src/main.rt" <<'PROGRAM'
#![tactic(auto)]

ghost use Rattle.std.specs.Prelude.{◌≡◌, ◌<◌, ◌^◌, IfOk};
ghost use Rattle.std.specs.List.{list_all};
ghost use Rattle.duality.specs.Sums.{is_small};

use exact_num::{Exact128, Steps};
use node_bound::{Bounded, bound};
use packing_model::{At, Fixing, Model, Pool};
use problem_core::{BuildFault, EventPart, Memory, Parts, Problem};
use std::alloc::Global;
use std::io;
use std::marker::Brand;
use std::rt::CpuClock;
use std::sync::ledger::{Blank, Ledger};
use std::time::Duration;
use values::Items;

/// Meetings of courses in turn: the meetings go round the slots.
fn events(alloc: Global, courses: u32, meetings: u32, slots: u32) -> Result<Items<EventPart>, Memory> {
    let mut events = Items::new(alloc);
    for course in 0..courses {
        for meeting in 0..meetings {
            let turn = course.wrapping_mul(meetings).wrapping_add(meeting);
            events.push(EventPart {
                course,
                slot: turn.checked_rem(slots).unwrap_or(0),
                length: 1,
            })?;
        }
    }
    Ok(events)
}

/// Courses of 10 students and rooms of 20 seats.
fn parts(alloc: Global, courses: u32, meetings: u32, slots: u32, rooms: u32) -> Result<Parts, Memory> {
    Ok(Parts {
        students: vec![in alloc; 10; courses as usize]?.into(),
        needs: vec![in alloc; 0; courses as usize]?.into(),
        capacity: vec![in alloc; 20; rooms as usize]?.into(),
        features: vec![in alloc; 0; rooms as usize]?.into(),
        slots,
        events: events(alloc, courses, meetings, slots)?,
        denied: Items::new(alloc),
        closed: Items::new(alloc),
        prefer: Items::new(alloc),
        robust: Items::new(alloc),
    })
}

const WEEK: [(u32, u32); 40] = [
    (0, 0), (0, 4), (0, 8), (0, 12), (1, 3), (1, 7), (1, 11), (2, 0), (2, 4), (2, 8), (2, 12), (3, 1), (3, 5), (3, 9),
    (4, 2), (4, 6), (4, 10), (5, 0), (5, 4), (5, 8), (5, 12), (6, 1), (6, 5), (6, 9), (7, 3), (7, 7), (7, 11),
    (8, 13), (8, 14), (8, 15), (9, 4), (9, 8), (9, 12), (9, 16), (10, 17), (10, 18), (10, 19), (11, 2), (11, 6), (11, 10),
];

fn week_events(alloc: Global) -> Result<Items<EventPart>, Memory> {
    let mut events = Items::new(alloc);
    for meeting in &WEEK {
        events.push(EventPart {
            course: meeting.0,
            slot: meeting.1,
            length: 1,
        })?;
    }
    Ok(events)
}

fn week(alloc: Global) -> Result<Parts, Memory> {
    let students = [18, 15, 35, 38, 30, 55, 50, 90, 100, 150, 180, 36];
    Ok(Parts {
        students: Items::from_slice(alloc, &students)?,
        needs: Items::from_slice(alloc, &[0, 0, 0, 0, 0, 0, 0, 0, 0, 0, 0, 1])?,
        capacity: Items::from_slice(alloc, &[20, 40, 60, 100, 200])?,
        features: Items::from_slice(alloc, &[0, 0, 1, 0, 0])?,
        slots: 20,
        events: week_events(alloc)?,
        denied: Items::from_slice(alloc, &[(1, 0), (8, 4)])?,
        closed: Items::from_slice(alloc, &[(4, 0)])?,
        prefer: Items::from_slice(alloc, &[(0, 0, 5), (4, 2, 2), (5, 2, 3), (10, 3, 4), (11, 2, -1)])?,
        robust: Items::from_slice(alloc, &[(0, 0), (100, 2), (250, 5)])?,
    })
}

fn model(alloc: Global, parts: Parts) -> Result<Model, BuildFault> {
    if !parts.well_formed() {
        return Err(BuildFault::Memory);
    }
    Model::build(alloc, Problem::build(alloc, parts)?)
}

fn are_values(values: &[i64]) -> bool
    ensures { result ≡ list_all (is_small (10 ^ 12)) values.now }
{
    for value in values {
        if !is_value(*value) {
            return false;
        }
    }
    true
}

fn is_value(value: i64) -> bool
    ensures { result ≡ is_small (10 ^ 12) value }
{
    value.unsigned_abs() <= 1_000_000_000_000
}

/// What is known at the root.
fn root<L: Ledger>(alloc: Global, model: &Model, targets: &[i64], best: i64, blank: Blank) -> Result<&'static str, Memory>
    requires name { blank.name ≡ L.name }
    requires parts { blank.parts ≡ L.parts }
    requires some { 0 < blank.parts }
{
    if targets.len() > 5 || !are_values(targets) || !is_value(best) {
        return Ok("a value is out of bounds");
    }
    let pool = Pool::new(alloc);
    let fixing = Fixing::empty(alloc);
    let at = At {
        model,
        pool: &pool,
        fixing: &fixing,
        level: targets.len() as u32 + 1,
        targets,
        best,
    };
    let mut steps: Steps<L> = Steps::new(blank);
    match bound(alloc, &at, &mut Exact128::new(), &mut steps)? {
        Bounded::Closed(_) => Ok("closed"),
        Bounded::Better(_) => Ok("better"),
        Bounded::Gap(_) => Ok("gap"),
        Bounded::Wide { .. } => Ok("wide"),
        Bounded::Stalled { .. } => Ok("stalled"),
    }
}

fn time(rt: &HostRuntime, model: &Model, targets: &[i64], best: i64) -> io::Result<()> {
    let start = rt.thread_cpu_time()?;
    let known = root::<Brand>(rt.alloc(), model, targets, best, Blank::new(1)).unwrap_or("memory");
    let took = rt.thread_cpu_time()?.saturating_sub(start);
    let micros = took.as_micros();
    let level = targets.len().saturating_add(1);
    println!(rt; "  level {level}: {known} in {micros} us")
}

/// Times the roots at which these are the values of the first levels.
fn time_roots(rt: &HostRuntime, model: &Model, values: &[i64]) -> io::Result<()> {
    let count = model.patterns().len();
    let rows = model.base_len();
    println!(rt; "  {count} patterns, {rows} base rows")?;
    for level in 0..values.len() {
        time(rt, model, &values[..level], values[level])?;
    }
    Ok(())
}

fn run(rt: &HostRuntime, parts: Result<Parts, Memory>, values: &[i64]) -> io::Result<()> {
    let Ok(parts) = parts else {
        return println!(rt; "  no parts");
    };
    match model(rt.alloc(), parts) {
        Ok(model) => time_roots(rt, &model, values),
        Err(_) => println!(rt; "  no model"),
    }
}

fn main(rt: HostRuntime) -> io::Result<()> {
    let alloc = rt.alloc();
    run(&rt, week(alloc), &[40, 2_649, 32_688, 29, -12, 99])?;
    run(&rt, parts(alloc, 20, 4, 20, 5), &[80, 800])?;
    run(&rt, parts(alloc, 40, 5, 25, 10), &[200, 2_000])
}
PROGRAM
sed 's/worked_cases.proofs.closing/nodes_bench.proofs/' "$top/crates/worked_cases/proofs/closing/are_values/Invariants.antt" >"$bench/proofs/are_values/Invariants.antt"
cat >"$bench/proofs/time/Invariants.antt" <<'PICK'
use Rattle.nodes_bench.proofs.time.Given as goal

abbrev pub ghosts-root : goal.ghosts-root
ghosts-root a = record { name = a.blank.name; parts = a.blank.parts }
PICK
cd "$bench"
rt run >"$work/log" 2>&1 || { cat "$work/log"; exit 1; }
grep '^  ' "$work/log"
if [ "${1:-}" = perf ]; then
    perf record -o "$work/perf" -q "$(find out -type f -perm -u+x -name 'nodes_bench*' | head -1)" >/dev/null
    perf report -i "$work/perf" --stdio 2>/dev/null | grep -v '^#' | head -40
fi
