"""What a frame is, its reverse, and whether it can be opened: `readback` beside the Rust, for every frame.

    python3 oracle/frames.py READBACK PROGRAM
"""

import sys

import compare
import sittings

OFFSETS = [0, 1, 2, 2**32, 2**63, 2**64 - 1]
KINDS = ["plain", "elapsed", "mark", "turn"]


def script():
    for frame in sittings.frames(sittings.Domain(), OFFSETS):
        yield sittings.clause(frame)
        yield from (sittings.opening(kind, "asc", "last", 0) for kind in KINDS)
        yield "reverse"
        yield "reverse"


def main(readback, program):
    commands = list(script())
    here, there = compare.run(readback, commands), compare.run(program, commands)
    for command, our, their in zip(commands, here, there):
        if our != their:
            print(f"{command}\nhere: {our}\nthere: {their}")
            return 1
    assert len(here) == len(there) == len(commands), "an answer to each command"
    print(f"{len(commands)} answers, no difference")
    return 0


if __name__ == "__main__":
    sys.exit(main(*sys.argv[1:]))
