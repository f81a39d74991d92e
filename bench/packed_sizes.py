#!/usr/bin/env python3
"""Compares the sizes of packed songs with another reading of the packed form: bench/packed_sizes.py CASES

A line of CASES is a JSON object with `song`, the bytes of a song that can be played in base 64, `packed_size`, the bytes
of its packed data, and `features`, six hexadecimal digits. What the file has comes from outside, never from goat.

The script puts a program beside copies of the crates that packs each song as it is, and with its patterns cut where that
takes fewer bytes, and runs it by `rt try`, which proves nothing. It prints the sums of both sizes, how many songs agree as
they are and each that doesn't; the status is 0 where all agree and none gets longer, and 1 else.
"""
import base64
import json
import sys

from beside_crates import answers_of, lines_of, tell

PROGRAM = r"""
use cut_pack::pack_shorter;
use play_model::Options;
use song_pack::{PackFault, pack_song};
use std::io;
use usage::usage;

fn main(rt: HostRuntime) -> io::Result<()> {
    let alloc = rt.alloc();
    for line in rt.lines(alloc) {
        let line = line?;
        let bytes = bytes_of(alloc, line.as_str().as_bytes())?;
        let Ok(song) = gts5::read(alloc, bytes.as_slice()) else {
            println!(rt; "no song")?;
            continue;
        };
        let Ok(parts) = usage(&song) else {
            println!(rt; "unplayable")?;
            continue;
        };
        match pack_song(alloc, &song, &parts) {
            Ok(packed) => {
                let (size, features) = (packed.size(), packed.features.0);
                match pack_shorter(alloc, &song, &parts, &Options::default()) {
                    Ok(shorter) => {
                        let shorter = shorter.size();
                        println!(rt; "{size} {features:06x} {shorter}")?;
                    }
                    Err(_) => println!(rt; "{size} {features:06x} none")?,
                }
            }
            Err(PackFault::PatternTooLong { pattern, length }) => {
                println!(rt; "pattern {pattern} packs to {length} bytes")?;
            }
            Err(PackFault::NoMemory) => println!(rt; "no memory")?,
        }
    }
    Ok(())
}
"""


def main():
    if len(sys.argv) != 2:
        sys.exit(__doc__.split("\n")[0])
    cases = [json.loads(line) for line in lines_of(sys.argv[1])]
    songs = [base64.b64decode(case["song"]).hex() for case in cases]
    crates = ["base", "song_model", "gts5", "play_model", "usage", "packed_form", "song_pack", "cut_pack"]
    answers = [answer.rpartition(" ") for answer in answers_of(PROGRAM, crates, songs, len(cases))]
    wanted = ["%d %s" % (case["packed_size"], case["features"]) for case in cases]
    got = [answer[0] for answer in answers]
    sizes = [(case["packed_size"], int(answer[2]) if answer[2].isdigit() else None)
             for case, answer in zip(cases, answers)]
    print("as they are %d bytes, with patterns cut %d" % (sum(whole for whole, _ in sizes),
                                                          sum(cut or 0 for _, cut in sizes)))
    tell(["%s: wanted %s, got %s" % (case["name"], *them)
          for case, *them in zip(cases, wanted, got) if them[0] != them[1]]
         + ["%s: %d bytes as it is, with its patterns cut %s" % (case["name"], whole, cut)
            for case, (whole, cut) in zip(cases, sizes) if cut is None or cut > whole], len(cases))


main()
