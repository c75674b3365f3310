#!/usr/bin/env python3
"""Compares the options that are in `lbench --help`, in the man page, in the completions for bash,
zsh and fish, and in the table of docs/FORMATS.md.

    bench/options/run.py LBENCH

Prints a line for each place that has an option too few or too many; the status is then 1.
"""
import re
import subprocess
import sys
from pathlib import Path

TOP = Path(__file__).resolve().parents[2]


def in_help(lbench):
    """The long options that the program prints."""
    text = subprocess.run([lbench, "--help"], capture_output=True, text=True, check=True).stdout
    return set(re.findall(r"--[a-z][a-z-]*", text))


def in_file(path, pattern):
    """The options that a pattern finds in a file."""
    return set(re.findall(pattern, (TOP / path).read_text()))


def main():
    wanted = in_help(sys.argv[1])
    found = {
        "docs/lbench.1": {
            "--" + name.replace("\\-", "-")
            for name in in_file("docs/lbench.1", r"(?m)^\.BR? .*?\\-\\-([a-z][a-z\\-]*)")
        },
        "completions/lbench.bash": in_file("completions/lbench.bash", r"--[a-z][a-z-]*") - {"--"},
        "completions/_lbench": in_file("completions/_lbench", r"--[a-z][a-z-]*"),
        "completions/lbench.fish": {
            "--" + name for name in in_file("completions/lbench.fish", r"-l ([a-z][a-z-]*)")
        },
        "docs/FORMATS.md": in_file("docs/FORMATS.md", r"(?m)^\| `(--[a-z][a-z-]*)"),
    }
    status = 0
    for place, options in found.items():
        for option in sorted(wanted - options):
            print(f"{place}: {option} is missing")
            status = 1
        for option in sorted(options - wanted):
            print(f"{place}: {option} is no option")
            status = 1
    if status == 0:
        print(f"{len(wanted)} options, the same in all {len(found)} places")
    return status


if __name__ == "__main__":
    sys.exit(main())
