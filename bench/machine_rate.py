#!/usr/bin/env python3
"""Events per second of the import machine, and its peak memory, for one thread that imports many modules.

Copies the crates into a scratch repository with a small program beside them, builds it there with `rt run` (which proves
the crates, some twenty minutes on a new machine), and runs it for 10,000 and 20,000 modules, each of which takes ten
events. Before each `Machine::step` stands `Machine::allowed`, as in a replay of events that nobody has judged; a desk
never asks. Both are timed, each by itself. The work of each goes by the size of the event and the logarithm of the
number of names, so twice the modules take twice the time: `step` alone within a factor of 1.2, and the two together at
most 2.2 times the time. Exit status 1 where they do not.
"""
import os
import pathlib
import sys
import tempfile

import scratch

PROGRAM = r"""//! Measures the machine.
#![tactic(auto)]

ghost use Rattle.std.specs.Prelude.{◌≡◌, ◌≤◌, ◌∷◌, [], length};

use base_types::{NoMemory, Seq, Text, Texts};
use import_machine::Machine;
use machine_events::Event;
use py_value::Value;
use spec_core::{Dotted, Spec, SpecKind};
use std::alloc::Global;
use std::env;
use std::io;
use std::time::{Clock, Instant};

fn dotted(alloc: Global, name: &str) -> Result<Dotted, NoMemory> {
    match Dotted::read(&Text::from_str(alloc, name)?)? {
        Some(name) => Ok(name),
        None => Err(NoMemory),
    }
}

fn source(alloc: Global, name: &str) -> Result<Spec, NoMemory> {
    let name = dotted(alloc, name)?;
    let file = Text::from_str(alloc, "m.py")?;
    Ok(Spec {
        name,
        kind: SpecKind::Source { file },
    })
}

fn open(alloc: Global) -> Result<Machine, NoMemory> {
    let mut scripts = Texts::new(alloc);
    scripts.push(Text::from_str(alloc, "main.py")?)?;
    let mut texts: Seq<Seq<u8>> = Seq::new(alloc);
    texts.push(Seq::new(alloc))?;
    let mut path = Texts::new(alloc);
    path.push(Text::new(alloc))?;
    Machine::new(&scripts, &texts, &path, &[1])
}

/// The k-th of the ten events of one module.
fn event(alloc: Global, name: &str, k: u32, load: u32, mid: u32) -> Result<Event, NoMemory> {
    match k {
        0 => Ok(Event::Ask(dotted(alloc, name)?)),
        1 => Ok(Event::Take(dotted(alloc, name)?)),
        2 => Ok(Event::PathGet),
        3 => Ok(Event::Add {
            spec: source(alloc, name)?,
            text: Seq::new(alloc),
        }),
        4 => Ok(Event::GetVar {
            mid,
            name: Text::from_str(alloc, "x")?,
            raw: true,
        }),
        5 => Ok(Event::SetVar {
            mid,
            name: Text::from_str(alloc, "x")?,
            value: Value::Int(1),
            raw: true,
        }),
        6 => Ok(Event::Print(Text::from_str(alloc, "x\n")?)),
        7 => Ok(Event::Finish { load, good: true }),
        8 => Ok(Event::Ask(dotted(alloc, name)?)),
        _ => Ok(Event::TabGet(dotted(alloc, name)?)),
    }
}

/// The nanoseconds since the start, and 0 where the clock fails.
fn since(clock: &impl Clock, start: &Instant) -> u128 {
    match start.elapsed(clock) {
        Ok(time) => time.as_nanos(),
        Err(_) => 0,
    }
}

/// The time that the machine takes to say whether the event may be made, and the time to make it, where
/// it may be made.
fn time_of(
    clock: &impl Clock,
    start: &Instant,
    machine: &mut Machine,
    event: Event,
) -> Option<(u128, u128)> {
    let before = since(clock, start);
    if machine.allowed(0, &event) {
        let between = since(clock, start);
        drop(machine.step(0, event));
        let after = since(clock, start);
        Some((between.wrapping_sub(before), after.wrapping_sub(between)))
    } else {
        drop(event);
        None
    }
}

/// How many of the ten events of each of these modules the machine made, in how many nanoseconds it said
/// that they may be made, and in how many it made them.
fn drive(
    clock: &impl Clock,
    start: &Instant,
    alloc: Global,
    machine: &mut Machine,
    modules: u32,
) -> Result<(u64, u128, u128), NoMemory> {
    let mut made = 0_u64;
    let mut asked = 0_u128;
    let mut spent = 0_u128;
    for i in 0..modules {
        for k in 0..10 {
            let event = numbered(alloc, i, k)?;
            if let Some((ask, make)) = time_of(clock, start, machine, event) {
                made = made.wrapping_add(1);
                asked = asked.wrapping_add(ask);
                spent = spent.wrapping_add(make);
            }
        }
    }
    Ok((made, asked, spent))
}

/// The k-th event of the i-th module.
fn numbered(alloc: Global, i: u32, k: u32) -> Result<Event, NoMemory> {
    let name = format!(in alloc; "m{i}")?;
    event(alloc, name.as_str(), k, i.wrapping_add(1), i.wrapping_add(4))
}

fn main(rt: HostRuntime) -> io::Result<()> {
    let mut modules = 10_000;
    for word in env::args(&rt)?.skip(1) {
        if let Ok(n) = word.parse::<u32>() {
            modules = n;
        }
    }
    let start = Instant::now(&rt)?;
    if let Ok(mut machine) = open(rt.alloc()) {
        if let Ok((made, asked, spent)) = drive(&rt, &start, rt.alloc(), &mut machine, modules) {
            println!(rt; "{made} {asked} {spent}")?;
        }
    }
    Ok(())
}
"""


def measure(program, modules):
    """The events, the nanoseconds of `allowed` and of `step`, and the peak memory in KiB of one run."""
    reader, writer = os.pipe()
    pid = os.posix_spawn(program, [str(program), str(modules)], os.environ, file_actions=[(os.POSIX_SPAWN_DUP2, writer, 1)])
    os.close(writer)
    with os.fdopen(reader) as pipe:
        words = pipe.read().split()
    _, _, usage = os.wait4(pid, 0)
    return int(words[0]), int(words[1]), int(words[2]), usage.ru_maxrss


def main():
    with tempfile.TemporaryDirectory() as folder:
        crate, _ = scratch.run(pathlib.Path(folder), "machine_rate", PROGRAM, ["import_machine"])
        program = crate / "out" / "machine_rate"
        steps, both = [], []
        for modules in (10_000, 20_000):
            runs = [measure(program, modules) for _ in range(5)]
            events = runs[0][0]
            steps.append(min(spent for _, _, spent, _ in runs))
            both.append(min(asked + spent for _, asked, spent, _ in runs))
            peak = max(memory for _, _, _, memory in runs)
            print(
                f"{modules} modules, {events} events: {events / (steps[-1] / 1e9):.0f} events/s, "
                f"with `allowed` before each {events / (both[-1] / 1e9):.0f} events/s, peak {peak / 1024:.0f} MiB"
            )
    print(f"twice the modules take {steps[1] / steps[0]:.2f} times the time, with `allowed` {both[1] / both[0]:.2f}")
    if steps[1] > 2.4 * steps[0]:
        sys.exit("twice the modules take more than 2.4 times the time")
    if both[1] > 2.2 * both[0]:
        sys.exit("with `allowed` before each step twice the modules take more than 2.2 times the time")


if __name__ == "__main__":
    main()
