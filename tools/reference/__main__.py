"""A second, independent implementation of the floor network, written from its rules alone.

    python3 tools/reference verify                          work the floors worked by hand, and random ones
    python3 tools/reference account                         print what the program `kalzhuna` must print
    python3 tools/reference cases                           print the stored case file
    python3 tools/reference answers < CASES                 print what a program must print for a case file
    python3 tools/reference soak COUNT [SEED] [PROGRAM]     compare a program on COUNT further random blocks
"""

import sys

sys.dont_write_bytecode = True

import account  # noqa: E402
import answers  # noqa: E402
import cases  # noqa: E402
import soak  # noqa: E402
import verify  # noqa: E402


def main(words):
    """Do what the words ask for."""
    match words:
        case ["verify"]:
            verify.verify()
        case ["account"]:
            account.tell()
        case ["cases"]:
            sys.stdout.write(answers.write_blocks(cases.stored()))
        case ["answers"]:
            sys.stdout.write(answers.answer_text(sys.stdin.read()))
        case ["soak", count, *rest] if len(rest) <= 2:
            soak.soak(int(count), int(rest[0]) if rest else 1, rest[1] if len(rest) > 1 else soak.PROGRAM)
        case _:
            sys.exit(__doc__)


main(sys.argv[1:])
