#!/usr/bin/env python3
"""Compares merging equal programs with another reading of it: bench/merged_programs.py CASES

A line of CASES is `plain TABLE marks MARKS entries ENTRIES = TO`, or `pulse ..` for a pulse table: the rows as left and
right bytes, the marked rows and the entries as bytes, all in hexadecimal and without spaces, and for each stored row,
from 1 on, the row that stands for it, 0 for none, in decimal. Lines that begin with `#` are passed over. What the file
has after each `=` comes from outside, never from goat.

The script puts a program beside copies of the crates that answers the lines, and runs it by `rt try`, which proves
nothing. It prints how many lines agree and each that doesn't; the status is 0 where all agree, and 1 else. That a row is
kept exactly where it stands for itself is looked at too.
"""
import re
import sys

from beside_crates import answers_of, lines_of, tell

PROGRAM = r"""
use song_model::{Table, TableRow};
use std::io;
use table_pack::merge_programs;

fn marks_of(numbers: &[u8]) -> [bool; 256] {
    let mut marks = [false; 256];
    for number in numbers {
        marks[*number as usize] = true;
    }
    marks
}

fn main(rt: HostRuntime) -> io::Result<()> {
    let alloc = rt.alloc();
    let mut parts = Vec::new(alloc);
    for line in rt.lines(alloc) {
        let line = line?;
        parts.push(bytes_of(alloc, line.as_str().as_bytes())?)?;
        if parts.len() < 4 {
            continue;
        }
        let pulse = parts[0][0] == 1;
        let mut rows = Vec::new(alloc);
        let mut at = 0;
        while at + 1 < parts[1].len() {
            rows.push(TableRow { left: parts[1][at], right: parts[1][at + 1] })?;
            at += 2;
        }
        let marks = marks_of(parts[2].as_slice());
        let entries = marks_of(parts[3].as_slice());
        parts.clear();
        let Ok(table) = Table::from_rows(alloc, rows.as_slice()) else {
            println!(rt; "no table")?;
            continue;
        };
        let map = merge_programs(&table, &marks, &entries, pulse);
        for p in 1..rows.len() + 1 {
            let to = map.to[p];
            if map.keep[p] != (to as usize == p) {
                print!(rt; "kept ")?;
            }
            print!(rt; "{to} ")?;
        }
        println!(rt; "")?;
    }
    Ok(())
}
"""


def case_of(line):
    """Which table, its rows, the marks, the entries, and the rows that stand for each."""
    found = re.fullmatch(r"(plain|pulse) ([0-9a-f]*) marks ([0-9a-f]*) entries ([0-9a-f]*) = ([0-9 ]*)", line)
    if found is None:
        sys.exit("no case: " + line[:80])
    return found.groups()


def main():
    if len(sys.argv) != 2:
        sys.exit(__doc__.split("\n")[0])
    cases = [case_of(line) for line in lines_of(sys.argv[1])]
    lines = []
    for kind, table, marks, entries, _ in cases:
        lines += ["01" if kind == "pulse" else "00", table, marks, entries]
    answers = answers_of(PROGRAM, ["base", "song_model", "table_pack"], lines, len(cases))
    tell(["%s %s marks %s entries %s = %s, and not %s" % (*case[:4], answer, case[4])
          for case, answer in zip(cases, answers) if answer.split() != case[4].split()], len(cases))


main()
