"""Compares a program with the answers to further random blocks."""

import random
import subprocess
import sys
import tempfile
from pathlib import Path

from answers import answer, write_blocks
from cases import further

BATCH = 200
PROGRAM = Path(__file__).resolve().parents[2] / "crates" / "cases" / "out" / "cases"


def difference(block, answers, lines):
    """Tell the first line that differs, keep the block in a file, and stop."""
    with tempfile.NamedTemporaryFile("w", dir="/tmp", prefix="block-", delete=False) as file:
        file.write(write_blocks([block]))
    place = next((place for place, pair in enumerate(zip(answers, lines)) if pair[0] != pair[1]), len(lines))
    print("the block in %s differs at line %d of its answers" % (file.name, place + 1))
    print("call:    ", block[place % len(block)])
    print("expected:", answers[place])
    print("printed: ", lines[place] if place < len(lines) else "nothing")
    sys.exit(1)


def soak(count, seed, program):
    """Run blocks in batches through a program and compare."""
    if not Path(program).exists():
        sys.exit("there is no program %s" % program)
    rng = random.Random(seed)
    blocks_done = calls = sends = 0
    while blocks_done < count:
        blocks = [further(rng) for _ in range(min(BATCH, count - blocks_done))]
        run = subprocess.run([program], input=write_blocks(blocks), capture_output=True, text=True,
                             check=False)
        lines = run.stdout.split("\n")
        for block in blocks:
            answers, more = answer(block)
            if lines[:len(answers)] != answers:
                difference(block, answers, lines[:len(answers)])
            lines = lines[len(answers):]
            calls += len(answers) * (len(block) - 1) // len(block)
            sends += more
        blocks_done += len(blocks)
        if lines != [""] or run.returncode != 0:
            print("the program printed more than expected, or ended with status", run.returncode)
            print("\n".join(lines[:3] + [run.stderr[:500]]))
            sys.exit(1)
        print("%d blocks, %d calls and %d sends agree" % (blocks_done, calls, sends), flush=True)
