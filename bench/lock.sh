#!/bin/sh
# Measures how many turns a second the lock takes, beside one whose waiters all sleep on one word: with 1, 4, 50 and 200 threads,
# which make so many turns together, each of about a microsecond of work.
# Usage: bench/lock.sh [N]   N turns in all, 40000 if left out. Each line tells the threads, and the turns a second of both. The
# program is proved before it is built, which takes some minutes.
set -eu
cd "$(dirname "$0")/.."
turns=${1:-40000}
work=$(mktemp -d)
trap 'rm -rf "$work"' EXIT

mkdir -p "$work/crates/lock_bench/src"
cp -r crates/turn_lock "$work/crates/"
rm -rf "$work/crates/turn_lock/out"
cp HANDLES "$work/"
cat > "$work/crates.txt" <<'CRATES'
turn_lock: atomic_table
lock_bench: turn_lock anyhow
CRATES
cat > "$work/crates/lock_bench/src/main.rt" <<'PROGRAM'
//! Turns a second of the lock, and of one whose waiters all sleep on one word.
#![tactic(auto)]

ghost use Rattle.std.specs.Prelude.{IfOk};
ghost use Rattle.std.specs.Arc.{arc_value};
ghost use Rattle.turn_lock.specs.Lock.{IsSeatOf};

use anyhow::Result;
use std::alloc::{AllocError, Global};
use std::hint::spin_loop;
use std::sync::atomic::{AtomicU64, Ordering};
use std::sync::{Arc, Mutex, Wait};
use std::thread::{self, JoinHandle, Threads};
use std::time::Instant;
use turn_lock::{Seat, TurnLock, Turned, Work};

#[derive(Drop)]
struct Sum {
    value: u64,
}

impl Turned for Sum {
    type Opening = ();

    type Entry = ();

    type Work = Mix;

    ghost use Rattle.std.specs.Prelude.{false};

    ghost opening = { λ _. tt };

    ghost stands = { λ _ _ _. Unit {0} };

    ghost kept = { λ _. false };
}

#[derive(Drop)]
struct Mix;

impl Work<Sum> for Mix {
    type Out = u64;

    ghost use Rattle.std.specs.Prelude.{[]};

    ghost entries = { λ _ _ _. [] };

    ghost gives = { λ _ _ _ _. Unit {0} };

    fn is_late(&self) -> bool {
        false
    }

    fn run(self, value: &mut Sum) -> u64 {
        value.value = mixed(value.value);
        value.value
    }
}

// About a microsecond of work.
fn mixed(start: u64) -> u64 {
    let mut value = start;
    for round in 0..700u64 {
        value = (value ^ round).wrapping_mul(0x9E37_79B9_7F4A_7C15).rotate_left(7);
    }
    value
}

// Turns in the order of their tickets; all who wait sleep on the number that is served.
#[derive(Drop)]
struct OneWord {
    drawn: AtomicU64,
    served: AtomicU64,
    value: Mutex<u64>,
}

impl OneWord {
    fn new() -> OneWord {
        OneWord {
            drawn: AtomicU64::new(0),
            served: AtomicU64::new(0),
            value: Mutex::new(1),
        }
    }

    fn turn<R: Wait>(&self, rt: &R) {
        let ticket = self.drawn.fetch_add(1, Ordering::SeqCst);
        let mut spins = 0;
        for _ in rt.forever() {
            let now = self.served.load(Ordering::SeqCst);
            if now == ticket {
                break;
            }
            if spins < 100 {
                spins += 1;
                spin_loop();
            } else {
                self.served.park(rt, (now & 0xFFFF_FFFF) as u32);
            }
        }
        let mut value = self.value.lock(rt);
        *value = mixed(*value);
        drop(value);
        self.served.fetch_add(1, Ordering::SeqCst);
        self.served.wake_all();
    }
}

// Makes so many turns.
fn take_turns<R: Wait>(rt: &R, lock: &TurnLock<Sum>, seat: &mut Seat<Sum>, each: u64)
    requires { IsSeatOf (λ _. tt) lock.now seat.old }
    ensures { IsSeatOf (λ _. tt) lock.now seat.new }
{
    for _ in 0..each {
        lock.turn(rt, seat, Mix);
    }
}

fn start<R: Wait + Threads + Copy + Send + 'static>(
    rt: R,
    lock: &Arc<TurnLock<Sum>>,
    seat: &mut Seat<Sum>,
    each: u64,
) -> Result<JoinHandle<()>>
    requires { IsSeatOf (λ _. tt) (arc_value lock.now) seat.old }
    ensures { IsSeatOf (λ _. tt) (arc_value lock.now) seat.new }
{
    let mut own = lock.split(seat);
    let theirs = Arc::try_clone(lock)?;
    let child = thread::spawn(
        &rt,
        move || -> ()
            requires { IsSeatOf (λ _. tt) (arc_value theirs) own }
        { take_turns(&rt, &theirs, &mut own, each) },
    )?;
    Ok(child)
}

fn lock_over(alloc: Global, value: u64) -> Result<(TurnLock<Sum>, Seat<Sum>), AllocError>
    ensures { IfOk result (λ r. IsSeatOf (λ _. tt) r.0 r.1) }
{
    match TurnLock::new(alloc, Sum { value }) {
        Ok(made) => Ok(made),
        Err(_sum) => Err(AllocError),
    }
}

fn places<R: Wait + Threads + Copy + Send + 'static>(
    rt: R,
    alloc: Global,
    threads: u64,
    each: u64,
) -> Result<()> {
    let (lock, mut seat) = lock_over(alloc, 1)?;
    let lock = Arc::new(alloc, lock)?;
    let mut children = Vec::new(alloc);
    for _ in 0..threads {
        children.push(start(rt, &lock, &mut seat, each)?)?;
    }
    while let Some(child) = children.pop() {
        child.join(&rt);
    }
    Ok(())
}

fn take_tickets<R: Wait>(rt: &R, lock: &OneWord, each: u64) {
    for _ in 0..each {
        lock.turn(rt);
    }
}

fn one_word<R: Wait + Threads + Copy + Send + 'static>(
    rt: R,
    alloc: Global,
    threads: u64,
    each: u64,
) -> Result<()> {
    let lock = Arc::new(alloc, OneWord::new())?;
    let mut children = Vec::new(alloc);
    for _ in 0..threads {
        let theirs = Arc::try_clone(&lock)?;
        children.push(thread::spawn(&rt, move || take_tickets(&rt, &theirs, each))?)?;
    }
    while let Some(child) = children.pop() {
        child.join(&rt);
    }
    Ok(())
}

fn main(rt: HostRuntime) -> Result<()> {
    let alloc = rt.alloc();
    println!(rt; "{:>8} {:>12} {:>12}", "threads", "the lock", "one word")?;
    for threads in [1u64, 4, 50, 200] {
        let each = TURNS / threads;
        let turns = (each * threads) as u128 * 1_000_000;
        let begun = Instant::now(&rt)?;
        places(rt, alloc, threads, each)?;
        let ours = begun.elapsed(&rt)?.as_micros();
        let begun = Instant::now(&rt)?;
        one_word(rt, alloc, threads, each)?;
        let other = begun.elapsed(&rt)?.as_micros();
        println!(rt; "{:>8} {:>12} {:>12}", threads, turns / ours.max(1), turns / other.max(1))?;
    }
    Ok(())
}
PROGRAM
proofs=$work/crates/lock_bench/proofs
mkdir -p "$proofs/take_turns" "$proofs/places" "$proofs/one_word"
cat > "$proofs/take_turns/Invariants.antt" <<'PROOF'
use Rattle.turn_lock.specs.Lock.{IsSeatOf}
use Rattle.lock_bench.proofs.take_turns.Given as goal

abbrev pub invariant-loop : goal.invariant-loop
invariant-loop g l = IsSeatOf (λ _. tt) l.lock l.seat
PROOF
cat > "$proofs/places/Invariants.antt" <<'PROOF'
use Rattle.std.proofs.Common.{length}
use Rattle.turn_lock.specs.Lock.{IsSeatOf}
use Rattle.lock_bench.proofs.places.Given as goal

abbrev pub invariant-loop : goal.invariant-loop
invariant-loop g l = IsSeatOf (λ _. tt) l.lock.value l.seat

abbrev pub decreases-loop-child : goal.decreases-loop-child
decreases-loop-child g l = length l.children.items
PROOF
cat > "$proofs/one_word/Invariants.antt" <<'PROOF'
use Rattle.std.proofs.Common.{length}
use Rattle.lock_bench.proofs.one_word.Given as goal

abbrev pub decreases-loop-child : goal.decreases-loop-child
decreases-loop-child g l = length l.children.items
PROOF
sed -i "s/TURNS/${turns}u64/" "$work/crates/lock_bench/src/main.rt"
(cd "$work/crates/turn_lock" && rt lib) > "$work/log" 2>&1 || { cat "$work/log" >&2; exit 1; }
cd "$work/crates/lock_bench"
rt run 2> "$work/log" || { cat "$work/log" >&2; exit 1; }
