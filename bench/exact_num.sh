#!/bin/sh
# Times the operations of crates/exact_num: nanoseconds of processor time for a
# call, the loop around it included.
# It builds a small program beside copies of the crates, in a folder of its own, and runs it.
# Usage: bench/exact_num.sh (rt must be on the PATH)
set -eu
top=$(cd "$(dirname "$0")/.." && pwd)
work=$(mktemp -d)
trap 'rm -rf "$work"' EXIT
mkdir -p "$work/crates/exact_bench/src" "$work/crates/exact_bench/specs"
for name in numbers exact_num; do
    mkdir "$work/crates/$name"
    for part in src specs proofs; do
        cp -r "$top/crates/$name/$part" "$work/crates/$name/"
    done
done
printf 'numbers:\nexact_num: numbers\nexact_bench: exact_num\n' >"$work/crates.txt"
: >"$work/crates/exact_bench/specs/Lib.antt"
cat >"$work/crates/exact_bench/src/main.rt" <<'PROGRAM'
#![tactic(auto)]

use exact_num::{Arith, Exact64, Exact128, Frac64, Frac128, Fraction};
use std::io;
use std::time::CpuClock;

const ROUNDS: u64 = 1_000_000;

fn once<A: Arith>(arith: &mut A, a: A::Num, b: A::Num, op: u8) -> i128 {
    if op == 2 {
        return if a < b { 1 } else { 0 };
    }
    let r = if op == 0 {
        arith.add(a, b)
    } else if op == 1 {
        arith.mul(a, b)
    } else {
        arith.sub(a, b)
    };
    match r {
        Ok(x) => x.num() ^ x.den(),
        Err(_) => 1,
    }
}

fn time<A: Arith>(
    rt: &HostRuntime,
    name: &str,
    arith: &mut A,
    pairs: &[(Option<A::Num>, Option<A::Num>)],
    op: u8,
) -> io::Result<()> {
    let start = rt.thread_cpu_time()?;
    let mut sum: i128 = 0;
    let mut count: u64 = 0;
    for _ in 0..ROUNDS {
        for (a, b) in pairs {
            if let (Some(a), Some(b)) = (*a, *b) {
                sum = sum.wrapping_add(once(arith, a, b, op));
                count = count.saturating_add(1);
            }
        }
    }
    let took = rt.thread_cpu_time()?.saturating_sub(start);
    let tenths = took.as_nanos().saturating_mul(10) / u128::from(count.max(1));
    let whole = tenths / 10;
    let part = tenths % 10;
    println!(rt; "  {name} {whole}.{part} ns (check {sum})")?;
    Ok(())
}

fn f(n: i128, d: i128) -> Option<Frac128> {
    Frac128::new(n, d)
}

fn s(n: i64, d: i64) -> Option<Frac64> {
    Frac64::new(n, d)
}

fn suite<A: Arith>(
    rt: &HostRuntime,
    name: &str,
    arith: &mut A,
    pairs: &[(Option<A::Num>, Option<A::Num>)],
) -> io::Result<()> {
    println!(rt; "{name}")?;
    time(rt, "add", arith, pairs, 0)?;
    time(rt, "sub", arith, pairs, 3)?;
    time(rt, "mul", arith, pairs, 1)?;
    time(rt, "less", arith, pairs, 2)?;
    Ok(())
}

fn main(rt: HostRuntime) -> io::Result<()> {
    let mut wide = Exact128::new();
    let mut short = Exact64::new();
    let whole = [(f(3, 1), f(5, 1)), (f(-7, 1), f(2, 1)), (f(12, 1), f(1, 1)), (f(0, 1), f(9, 1))];
    let small = [(f(3, 4), f(5, 6)), (f(-7, 12), f(2, 9)), (f(12, 35), f(1, 14)), (f(1, 2), f(-9, 10)), (f(1, 3), f(7, 1))];
    let middle = [(f(1_234_567_891, 987_654_321), f(123_456_789, 1_987_654_323)), (f(-777_777_777, 1_000_000_007), f(222_222_223, 998_244_353))];
    let long = [
        (f(1_267_650_600_228_229_401_496_703_205_653, 1_267_650_600_228_229_401_496_703_205_223), f(1_125_899_906_842_624, 1_267_650_600_228_229_401_496_703_205_223)),
        (f(1_267_650_600_228_229_401_496_703_205_651, 7), f(3, 1_267_650_600_228_229_401_496_703_205_223)),
    ];
    suite(&rt, "small whole numbers, 128-bit parts", &mut wide, whole.as_slice())?;
    suite(&rt, "small fractions, 128-bit parts", &mut wide, small.as_slice())?;
    suite(&rt, "fractions of 30 bits, 128-bit parts", &mut wide, middle.as_slice())?;
    suite(&rt, "fractions of 100 bits, 128-bit parts", &mut wide, long.as_slice())?;
    let whole = [(s(3, 1), s(5, 1)), (s(-7, 1), s(2, 1)), (s(12, 1), s(1, 1)), (s(0, 1), s(9, 1))];
    let small = [(s(3, 4), s(5, 6)), (s(-7, 12), s(2, 9)), (s(12, 35), s(1, 14)), (s(1, 2), s(-9, 10)), (s(1, 3), s(7, 1))];
    suite(&rt, "small whole numbers, 64-bit parts", &mut short, whole.as_slice())?;
    suite(&rt, "small fractions, 64-bit parts", &mut short, small.as_slice())?;
    Ok(())
}
PROGRAM
cd "$work/crates/exact_bench"
rt run >"$work/log" 2>&1 || { cat "$work/log"; exit 1; }
grep -E ' bit|-bit|^  [a-z]+ [0-9]' "$work/log" | grep -v '^rt'
