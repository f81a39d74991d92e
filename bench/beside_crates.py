"""Answers of a program that stands beside goat's crates, for the scripts that compare them with another reading.

The crates that the program needs are copied to a temporary folder, and it is run there by `rt try`, which proves
nothing.
"""
import os
import shutil
import subprocess
import sys
import tempfile

TOP = os.path.dirname(os.path.dirname(os.path.abspath(__file__)))

# What each of the programs begins with: bytes from a line of hexadecimal digits.
BYTES_OF = r"""
#![tactic(auto)]

use std::alloc::{AllocError, Global};

fn digit(byte: u8) -> u8 {
    match byte {
        b'0'..=b'9' => byte - b'0',
        b'a'..=b'f' => byte - b'a' + 10,
        _ => 0,
    }
}

fn bytes_of(alloc: Global, text: &[u8]) -> Result<Vec<u8>, AllocError> {
    let mut bytes = Vec::new(alloc);
    let mut at = 0;
    while at + 1 < text.len() {
        bytes.push(digit(text[at]) * 16 + digit(text[at + 1]))?;
        at += 2;
    }
    Ok(bytes)
}
"""


def stands_on():
    """The libraries that each crate stands on."""
    with open(os.path.join(TOP, "crates.txt")) as file:
        lines = [line.strip().split(":") for line in file if ":" in line and not line.startswith("#")]
    return {name: libraries.split() for name, libraries in lines}


def all_below(crates, known):
    """These crates and those that they stand on, each below those that stand on it."""
    found = []
    for crate in crates:
        if crate in known:
            found += [it for it in all_below(known[crate], known) + [crate] if it not in found]
    return list(dict.fromkeys(found))


def answers_of(program, crates, lines, count):
    """The lines that the program, which uses these crates, answers to the lines that it reads: so many, or the end."""
    known = stands_on()
    with tempfile.TemporaryDirectory() as folder:
        needed = all_below(crates, known)
        with open(os.path.join(folder, "crates.txt"), "w") as file:
            for crate in needed:
                file.write("%s: %s\n" % (crate, " ".join(known[crate])))
            file.write("compare: %s\n" % " ".join(crates))
        for crate in needed:
            shutil.copytree(os.path.join(TOP, "crates", crate), os.path.join(folder, "crates", crate),
                            ignore=shutil.ignore_patterns("out"))
        home = os.path.join(folder, "crates", "compare")
        os.makedirs(os.path.join(home, "src"))
        with open(os.path.join(home, "src", "main.rt"), "w") as file:
            file.write(BYTES_OF.lstrip() + program)
        run = subprocess.run(["rt", "try"], cwd=home, input="".join(line + "\n" for line in lines), capture_output=True,
                             text=True)
        if run.returncode != 0:
            sys.exit("rt try fails:\n" + (run.stdout + run.stderr)[-3000:])
        answers = run.stdout.splitlines()
        if len(answers) != count:
            sys.exit("%d lines for %d cases:\n%s" % (len(answers), count, run.stdout[-2000:]))
        return answers


def lines_of(path):
    """The lines of a file of cases, without those that begin with `#`."""
    with open(path) as file:
        return [line.rstrip("\n") for line in file if not line.startswith("#")]


def tell(differences, count):
    """Prints each difference and how many of the cases agree, and ends with the status 0 where all do, and 1 else."""
    for difference in differences:
        print(difference)
    print("%d of %d agree" % (count - len(differences), count))
    sys.exit(1 if differences else 0)
