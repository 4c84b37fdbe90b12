#!/usr/bin/env python3
"""Bytes per second of the lexer and of the parser at three sizes of ordinary source.

Copies the crates into a scratch repository with a small program beside them, builds it there with `rt run` (which proves
the crates, some half an hour on a new machine), and prints the best rates of several rounds. The work of both is linear,
so the rates of each at 64 KiB, 256 KiB and 1 MiB lie within a factor of 1.5 of each other. Exit status 1 where they do
not. What the parser takes has the lexer's part in it.
"""
import pathlib
import tempfile

import scratch

PROGRAM = r"""//! Measures the lexer and the parser.
#![tactic(auto)]

use py_lexer::tokens;
use py_parser::parse;
use std::alloc::Global;
use std::io;
use std::time::Instant;

const FRONT: &[u8] = b"def function(first, second):\n";
const LINE: &[u8] = b"    value = first.field[0] + second(1_000, 'text', name)  # a comment\n";

/// How many tokens there are.
fn token_count(alloc: Global, src: &[u8]) -> usize {
    match tokens(alloc, src) {
        Ok(list) => list.len(),
        Err(_) => 0,
    }
}

/// How many statements stand at the top.
fn statement_count(alloc: Global, src: &[u8]) -> usize {
    match parse(alloc, src) {
        Ok(script) => script.body.len(),
        Err(_) => 0,
    }
}

fn main(rt: HostRuntime) -> io::Result<()> {
    for (lines, rounds) in [(936_u32, 64_u32), (3_744, 16), (14_979, 4)] {
        let mut src = Vec::new(rt.alloc());
        src.extend_from_slice(FRONT)?;
        for _ in 0..lines {
            src.extend_from_slice(LINE)?;
        }
        let mut count = 0;
        let mut lexing = u128::MAX;
        let mut parsing = u128::MAX;
        for _ in 0..rounds {
            let start = Instant::now(&rt)?;
            count = token_count(rt.alloc(), &src);
            lexing = lexing.min(start.elapsed(&rt)?.as_nanos());
            let start = Instant::now(&rt)?;
            if statement_count(rt.alloc(), &src) == 1 {
                parsing = parsing.min(start.elapsed(&rt)?.as_nanos());
            }
        }
        println!(rt; "{} {count} {lexing} {parsing}", src.len())?;
    }
    Ok(())
}
"""


def main():
    with tempfile.TemporaryDirectory() as folder:
        _, written = scratch.run(pathlib.Path(folder), "token_rate", PROGRAM, ["py_lexer", "py_parser"])
    rates = []
    for size, count, lexing, parsing in scratch.numbers(written, 4):
        rates.append((size / lexing * 1e3, size / parsing * 1e3))
        print(f"{size} bytes, {count} tokens: lexer {rates[-1][0]:.1f} MB/s, parser {rates[-1][1]:.1f} MB/s")
    scratch.end_unless_linear(rates, 3)


if __name__ == "__main__":
    main()
