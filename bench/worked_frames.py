#!/usr/bin/env python3
"""Makes worked frames: bench/worked_frames.py FILE NAME SONG..

FILE tells what small songs leave in the SID's registers, by another reading of the rules than this
repository's. The recorded runs aren't kept beside this script. For each run FILE has these lines:

    song NAME SUBTUNE FRAMES SKIP SPEED
    the song's file of the format GTS5, in hexadecimal
    the 25 registers after call 1, in hexadecimal, and so on for each call up to FRAMES

Subtunes are counted from 1. SKIP is none, effects, pulse, both or all, SPEED is 1 to 4. A line that begins
with # is left out, and so are the song's texts and the names of its instruments.

Each run of a song SONG becomes a field of a record in crates/worked_frames/specs/NAME.antt, which is
computed in crates/worked_frames/proofs/NAME.antt. A contract must name the record, NAME with Hold after
it, and the Lib.antt files the two modules.
"""
import os
import re
import sys

LIMIT = 98
SPEC_HEAD = """\
-- What small songs leave in the registers, by another reading of the rules than this one's.
-- Written by bench/worked_frames.py.
use Rattle.std.specs.Prelude.{true, false, [], ◌∷◌}
use Rattle.song_model.specs.declared.songs.Song.{Song}
use Rattle.song_model.specs.Silence.{empty_song}
use Rattle.play_model.specs.WorkedSongs.{row, sides}
use Rattle.play_model.specs.WorkedRuns.{order_from, three_orders, instrument, left_out, Plays}
"""
PROOF_HEAD = """\
-- What small songs leave in the registers, computed by the checker.
-- Written by bench/worked_frames.py.
use Rattle.std.proofs.Common.{true, false, refl}
use Rattle.song_model.specs.Walk.{prefix_of, cycle_of, played}
use Rattle.song_model.specs.LookUp.{playable_subtune, instrument_at, table_row, pattern_at}
use Rattle.play_model.specs.Freq.{freq, half_tone, slide}
use Rattle.play_model.specs.Helpers.{next_row, porta_up, porta_down, tone, vibrato, do_command}
use Rattle.play_model.specs.FilterStep.{filter_step}
use Rattle.play_model.specs.TickStep.{between_rows, note_started, row_command, at_row, tick_step}
use Rattle.play_model.specs.WaveStep.{wave_command, wave_step}
use Rattle.play_model.specs.EffectStep.{effect_step}
use Rattle.play_model.specs.PulseStep.{pulse_step}
use Rattle.play_model.specs.FetchRow.{fetch_row}
use Rattle.play_model.specs.Frame.{voice_step, voice_registers, filter_registers, frame_of}
use Rattle.play_model.specs.WorkedRuns.{left_out}
"""
UNFOLDING = """\
unfolding prefix_of cycle_of played playable_subtune instrument_at table_row pattern_at
    freq half_tone slide next_row porta_up porta_down tone vibrato do_command filter_step
    between_rows note_started row_command at_row tick_step wave_command wave_step effect_step
    pulse_step fetch_row voice_step voice_registers filter_registers frame_of calls_from"""


class Reader:
    """The bytes of a song's file, taken from the front."""

    def __init__(self, data):
        self.data = data

    def take(self, count):
        front, self.data = self.data[:count], self.data[count:]
        return front

    def byte(self):
        return self.take(1)[0]

    def order(self):
        entries = self.take(self.byte())[:-1]
        return f"order_from {items(map(number, entries))} {number(self.byte())}"

    def instrument(self):
        fields = self.take(9)
        self.take(16)
        return "instrument " + " ".join(map(number, fields))

    def table(self):
        count = self.byte()
        lefts, rights = self.take(count), self.take(count)
        return [f"sides {number(left)} {number(right)}" for left, right in zip(lefts, rights)]

    def pattern(self):
        rows = [self.take(4) for _ in range(self.byte())][:-1]
        return items("row " + " ".join(map(number, row)) for row in rows)


def number(byte):
    return str(byte) if byte < 10 else f"0x{byte:02X}"


def items(texts):
    return "(" + " ∷ ".join([*texts, "[]"]) + ")"


def wrapped(text):
    """An item's text in lines, cut where an item within it ends."""
    lines = []
    left = "      " + text
    while len(left) > LIMIT:
        cut = left.rfind(" ∷ ", 0, LIMIT)
        lines.append(left[:cut])
        left = "      " + left[cut + 1 :]
    return lines + [left]


def field(name, texts):
    """A field of a song: a list, with an item a line."""
    if not texts:
        return [f"  {name} = [];"]
    lines = [f"  {name} ="]
    for place, text in enumerate(texts):
        lines += wrapped(("∷ " if place else "") + text)
    return lines + ["      ∷ [];"]


def song_lines(name, data):
    reader = Reader(data)
    if reader.take(4) != b"GTS5":
        sys.exit(f"{name} isn't of the format GTS5")
    reader.take(96)
    subtunes = []
    for _ in range(reader.byte()):
        one, two, three = (f"({reader.order()})" for _ in range(3))
        subtunes.append(f"three_orders {one} {two} {three}")
    instruments = [reader.instrument() for _ in range(reader.byte())]
    tables = [reader.table() for _ in range(4)]
    patterns = [reader.pattern() for _ in range(reader.byte())]
    lines = [f"abbrev pub {name} : Song", f"{name} = record empty_song {{"]
    lines += field("subtunes", subtunes) + field("instruments", instruments)
    for table, rows in zip(["wave", "pulse", "filter", "speed"], tables):
        lines += field(table, [" ∷ ".join(rows)] if rows else [])
    return lines + field("patterns", patterns) + ["}", ""]


def runs_of(path):
    with open(path, encoding="ascii") as file:
        lines = [line.strip() for line in file if not line.startswith("#")]
    runs = []
    while lines:
        _, name, subtune, frames, skip, speed = lines[0].split()
        end = 2 + int(frames)
        effects, pulse = (str(skip in (word, "both")).lower() for word in ("effects", "pulse"))
        options = f"(all_left_out {speed})" if skip == "all" else f"(left_out {effects} {pulse} {speed})"
        runs.append((name, int(subtune) - 1, f"{skip}_{speed}", options, bytes.fromhex(lines[1]), lines[2:end]))
        lines = lines[end:]
    return runs


def plain_name(name):
    return re.sub(r"([a-z])([0-9])", r"\1_\2", name)


def lemma_name(module):
    return re.sub(r"(?<=[a-z])(?=[A-Z])", "_", module).lower() + "_lem"


def main():
    path, module, *wanted = sys.argv[1:]
    crate = os.path.join(os.path.dirname(os.path.dirname(os.path.abspath(__file__))), "crates/worked_frames")
    runs = [run for run in runs_of(path) if run[0] in wanted]
    songs = {run[0]: run[4] for run in runs}
    with_all = any(run[2].startswith("all") for run in runs)
    head, proof_head = (
        text.replace("left_out", "all_left_out, left_out") if with_all else text for text in (SPEC_HEAD, PROOF_HEAD)
    )
    specs = [head]
    for name, data in songs.items():
        specs += song_lines(plain_name(name), data)
    specs.append(f"pub record {module}Hold : Type 0 where")
    proofs = [proof_head + "use Rattle.play_model.proofs.Laws.{calls_from, plays}"]
    names = ", ".join([plain_name(name) for name in songs] + [f"{module}Hold"])
    proofs += [f"use Rattle.worked_frames.specs.{module}.{{{names}}}", "", f"pub {lemma_name(module)} : {module}Hold", UNFOLDING]
    proofs.append(f"{lemma_name(module)} = record {{")
    for name, subtune, suffix, options, _, lines in runs:
        run = f"{plain_name(name)}_{suffix}"
        specs.append(f"  pub {run} : Plays {options} {plain_name(name)} {subtune} (")
        specs += [f"      0x{line} ∷" for line in lines]
        specs.append("      [])")
        proofs.append(f"  {run} = plays {options} {plain_name(name)} {subtune} _ refl;")
    proofs.append("}")
    for folder, text in [("specs", specs), ("proofs", proofs)]:
        with open(os.path.join(crate, folder, f"{module}.antt"), "w", encoding="utf-8") as file:
            file.write("\n".join(text) + "\n")


if __name__ == "__main__":
    main()
