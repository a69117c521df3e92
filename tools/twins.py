#!/usr/bin/env python3
"""Lists the pairs of places in src/ that share six or more lines, alike but for names, texts and numbers.

usage: python3 tools/twins.py [COMMIT]        at the top of the repository; HEAD if no commit is told

Tests, comments, imports, contracts and lines that only close something are left out. A pair is told once, with its longest
run of lines.
"""

import re
import subprocess
import sys

WINDOW = 6
KEYWORDS = set(
    "as break const continue else enum fn for if impl in let loop match mod mut pub ref return self Self static struct trait"
    " type unsafe use where while Some None Ok Err true false".split()
)
LEFT_OUT = re.compile(r"^(//|#|ghost |use |pub use |mod |pub mod |requires\b|ensures\b|[)}\],;(]*$)")


def git(*args):
    return subprocess.run(["git", *args], stdout=subprocess.PIPE, text=True, check=True).stdout


def shape(line):
    line = re.sub(r'b?"[^"]*"', '"', line)
    line = re.sub(r"\b[0-9][0-9_a-z]*\b", "0", line)
    return re.sub(r"\b[A-Za-z_]\w*\b", lambda m: m.group() if m.group() in KEYWORDS else "N", line)


def main():
    commit = sys.argv[1] if len(sys.argv) > 1 else "HEAD"
    names = git("ls-tree", "-r", "--name-only", commit).split("\n")
    lines = []
    for name in names:
        if re.match(r"crates/[^/]+/src/.*\.rt$", name) and not name.endswith("tests.rt"):
            for number, line in enumerate(git("show", f"{commit}:{name}").split("\n"), 1):
                line = line.strip()
                if line and not LEFT_OUT.match(line):
                    lines.append((name, number, shape(line)))
            lines.append((name, 0, None))
    starts = {}
    for i in range(len(lines) - WINDOW + 1):
        window = tuple(line[2] for line in lines[i : i + WINDOW])
        # Lines that are names and marks alone, as lists of fields are, say nothing.
        if None not in window and len(set(window)) > 3:
            starts.setdefault(window, []).append(i)
    pairs = 0
    for places in starts.values():
        for n, i in enumerate(places):
            for j in places[n + 1 :]:
                before = i > 0 and lines[i - 1][2] is not None and lines[i - 1][2] == lines[j - 1][2]
                if before or j - i < WINDOW:
                    continue
                size = WINDOW
                while j + size < len(lines) and lines[i + size][2] and lines[i + size][2] == lines[j + size][2]:
                    size += 1
                pairs += 1
                print(f"{lines[i][0]}:{lines[i][1]} and {lines[j][0]}:{lines[j][1]}, {size} lines")
    print(f"{pairs} pairs")


main()
