#!/usr/bin/env python3
"""Lists and assembles: bench/listings.py [PROGRAM]

Packs the demo's tune, lists it and assembles the listing: that must be the raw file again, and so must be what acme and
64tass make of it, where they are installed, with the lines written for them as demo/README.md says. Then an image of
52 KB is listed and assembled, in turns with a copy of a song of 250 KB, and the milliseconds of processor time of a run
of each are printed, and how often a copy goes into them. PROGRAM is the built program; without it `./goat` of this
repository is called once, so that it is built, and its binary is used.
"""
import os
import random
import shutil
import subprocess
import sys
import tempfile

from packing import processor_time
from runs import built_program
from songs import noted_song

TIMES = 20
HERE = os.path.dirname(os.path.abspath(__file__))
TUNE = os.path.join(HERE, os.pardir, "demo", "lantern.sng")
SEDS = {"acme": "s/^\\.byte/!byte/; s/ A$//", "64tass": "s/\\$00[0-9A-F][0-9A-F]/@w &/"}
WORDS = {
    "acme": ["acme", "-f", "plain", "-o", "out", "other"],
    "64tass": ["64tass", "-q", "-b", "-o", "out", "other"],
}


def content(folder, name):
    with open(os.path.join(folder, name), "rb") as file:
        return file.read()


def goes_back(program, folder, raw):
    """Lists the PSID file `in`, and holds what comes of the listing against a raw file."""
    processor_time(program, ["disasm", "in", "listing"], folder, 0)
    processor_time(program, ["asm", "listing", "again"], folder, 0)
    if content(folder, "again") != raw:
        sys.exit("the listing isn't that of the image")


def others_agree(folder, raw):
    """Holds what other assemblers make of the listing against a raw file, and returns their names."""
    tried = [name for name in SEDS if shutil.which(name)]
    for name in tried:
        with open(os.path.join(folder, "other"), "wb") as file:
            subprocess.run(["sed", SEDS[name], "listing"], cwd=folder, stdout=file, check=True)
        subprocess.run(WORDS[name], cwd=folder, check=True, capture_output=True)
        if content(folder, "out") != raw[2:]:
            sys.exit("%s makes other bytes of the listing" % name)
    return tried


def psid_of(image):
    """A PSID file of an image at $0800."""
    header = b"PSID" + bytes.fromhex("0002007C00000800080300010001") + bytes(100)
    return header + bytes.fromhex("001400000000") + b"\0\x08" + image


def main():
    program = os.path.abspath(sys.argv[1]) if len(sys.argv) > 1 else built_program()
    with tempfile.TemporaryDirectory() as folder:
        shutil.copyfile(TUNE, os.path.join(folder, "song"))
        processor_time(program, ["pack", "song", "in", "psid", "1000", "FC"], folder, 0)
        processor_time(program, ["pack", "song", "raw", "raw", "1000", "FC"], folder, 0)
        raw = content(folder, "raw")
        goes_back(program, folder, raw)
        print("the tune's listing: %d bytes; the same image by goat, %s"
              % (len(content(folder, "listing")), ", ".join(others_agree(folder, raw)) or "no other assembler is here"))
        image = bytes(random.Random(1).randrange(256) for _ in range(52 * 1024))
        for name, data in [("in", psid_of(image)), ("song", noted_song(207, 32))]:
            with open(os.path.join(folder, name), "wb") as file:
                file.write(data)
        goes_back(program, folder, b"\0\x08" + image)
        runs = [["copy", "song", "out"], ["disasm", "in", "listing"], ["asm", "listing", "again"]]
        sums = [0.0, 0.0, 0.0]
        for _ in range(TIMES):
            for place, words in enumerate(runs):
                sums[place] += processor_time(program, words, folder, 0)[0]
        copy, listed, assembled = [1000 * it / TIMES for it in sums]
        print("52 KB: disasm %.1f ms, %.2f copies of %d bytes; asm %.1f ms, %.2f copies; a copy %.1f ms"
              % (listed, listed / copy, os.path.getsize(os.path.join(folder, "song")), assembled, assembled / copy, copy))


if __name__ == "__main__":
    main()
