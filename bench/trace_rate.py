#!/usr/bin/env python3
"""Bytes per second of a trace of 100,000 entries that is read and written again.

Copies the crates into a scratch repository with a small program beside them, builds it there with `rt run` (which proves
the crates, some twenty minutes on a new machine), and prints the best rates of several rounds, at 50,000 and at 100,000
entries. The work is linear, so the rates lie within a factor of 1.5 of each other. Exit status 1 where they do not.
"""
import pathlib
import tempfile

import scratch

PROGRAM = r"""//! Measures reading and writing of traces.
#![tactic(auto)]

use std::io;
use std::time::Instant;
use trace_read::read_trace;
use trace_text::write_trace;

const FIRST: &str = "pyimport-trace 2\n";
const LINES: &str = r#"0 ask a.b -> missing
0 take a.b -> mine 0
0 pathget -> path ["","lib"]
0 add a.b file("a/b.py") "x = 1\nprint(x)\n" -> load 1 4
0 set 4 x 1 raw -> done
0 get 4 x raw -> value 1
0 print "1\n" -> done
0 finish 1 good -> kept module(4,a.b,"a/b.py")
0 set 0 b module(4,a.b,"a/b.py") raw -> done
0 end normal 1000000 -> done
"#;

fn main(rt: HostRuntime) -> io::Result<()> {
    for (rounds, times) in [(5_000_u32, 40_u32), (10_000, 20)] {
        let mut text = String::new(rt.alloc());
        text.push_str(FIRST)?;
        for _ in 0..rounds {
            text.push_str(LINES)?;
        }
        let mut reading = u128::MAX;
        let mut writing = u128::MAX;
        for _ in 0..times {
            let start = Instant::now(&rt)?;
            if let Ok(trace) = read_trace(rt.alloc(), text.as_bytes()) {
                reading = reading.min(start.elapsed(&rt)?.as_nanos());
                let start = Instant::now(&rt)?;
                if let Ok(again) = write_trace(rt.alloc(), trace.entries.as_slice()) {
                    if again.as_str() == text.as_str() {
                        writing = writing.min(start.elapsed(&rt)?.as_nanos());
                    }
                }
            }
        }
        println!(rt; "{} {reading} {writing}", text.len())?;
    }
    Ok(())
}
"""


def main():
    with tempfile.TemporaryDirectory() as folder:
        _, written = scratch.run(pathlib.Path(folder), "trace_rate", PROGRAM, ["trace_read", "trace_text"])
    rates = []
    for size, reading, writing in scratch.numbers(written, 3):
        rates.append((size / reading * 1e3, size / writing * 1e3))
        print(f"{size} bytes: read {rates[-1][0]:.1f} MB/s, written {rates[-1][1]:.1f} MB/s")
    scratch.end_unless_linear(rates, 2)


if __name__ == "__main__":
    main()
