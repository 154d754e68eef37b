#!/usr/bin/env python3
"""make.py                  writes crates/replay/stdin and crates/replay/stdout from cases/items.txt and cases/grammar.txt
make.py --check ORACLE   runs the oracle on each case and says where a list expects another answer

The lists say how a case is written. How its bytes are, crates/replay/src/main.rt says."""
import subprocess
import sys
from pathlib import Path

# Nothing is written beside the lists.
sys.dont_write_bytecode = True

import grammar
import items

HERE = Path(__file__).resolve().parent
LISTS = {"items.txt": items.Case, "grammar.txt": grammar.Case}


def read_list(name, kind):
    """Each case with where it stands and its line."""
    lines = []
    for n, line in enumerate((HERE / name).read_text().splitlines(), 1):
        if line.startswith(" "):
            first, begun = lines.pop()
            lines.append((first, f"{begun} {line.strip()}"))
        elif line and not line.startswith("#"):
            lines.append((n, line))
    cases = []
    for n, line in lines:
        try:
            case = kind(line)
            case.answer()
        except (ValueError, TypeError, IndexError) as error:
            sys.exit(f"cases/{name}:{n}: {error}")
        cases.append((f"cases/{name}:{n}", line, case))
    return cases


def write(cases):
    replay = HERE.parent / "crates" / "replay"
    given = b"".join(case.input() for _, _, case in cases)
    expected = b"".join(case.answer() for _, _, case in cases)
    (replay / "stdin").write_bytes(given)
    (replay / "stdout").write_bytes(expected)
    print(f"{len(cases)} cases; stdin {len(given)} bytes, stdout {len(expected)} bytes")


def check(cases, oracle):
    """The oracle's answers, all in one run, cut where each case's answer has to end."""
    given = b"".join(case.input() for _, _, case in cases)
    run = subprocess.run([oracle, "items"], input=given, stdout=subprocess.PIPE)
    differences, at = 0, 0
    for where, line, case in cases:
        expected = case.answer()
        size = case.length(run.stdout, at)
        answer = run.stdout[at:at + size]
        at += size
        if len(answer) < size:
            sys.exit(f"{where}: the oracle gives no answer")
        if answer != expected:
            differences += 1
            print(f"{where}: {line}\n    the oracle: {case.say(answer)}")
    if run.returncode != 0 or at != len(run.stdout):
        sys.exit("the oracle failed, or wrote more than its answers")
    print(f"{len(cases)} cases, {differences} differences")
    return differences


def main(words):
    cases = [case for name, kind in LISTS.items() for case in read_list(name, kind)]
    if not words:
        write(cases)
    elif len(words) == 2 and words[0] == "--check":
        sys.exit(1 if check(cases, words[1]) else 0)
    else:
        sys.exit(__doc__)


if __name__ == "__main__":
    main(sys.argv[1:])
