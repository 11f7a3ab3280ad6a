#!/usr/bin/env python3
"""Times lines on the memory, beside `patch` lines in the same run, over a pack of 203 cylinders, and measures what memory a session has.

- 10,000 lines `block 1`, and then 10,000 `unblock` of these blocks, in the order in which they were taken or in the other one, beside
  20,000 lines `patch A 0 41`. It fails if the blocks take longer.
- `unblock` and `block 1` of the last block in turn, and `fetch` of its word, in a zone that is full of 19,968 blocks of 2 words. A line's
  time is that of a session which has 10,000 of them besides, less that of one which fills the zone alone. It fails if one of `block` and
  `unblock` takes more than 0.2 ms, or `fetch` more than 0.1 ms.
- The most memory of a session in which the zone was full once and given back, and once it was so again: it fails if that is a page more.

A time is the median of the runs, of whole processes from their start to their end, in turn. Each reply is compared with the one that it must be.
"""
import pathlib
import statistics
import subprocess
import sys
import tempfile

sys.dont_write_bytecode = True
sys.path.append(str(pathlib.Path(__file__).resolve().parent.parent / "check"))
import arguments
import packs
from timing import PAGE_KIB, answered, machine, most_memory, timed

CYLINDERS = 203
# words of the user and of the zone at level 8, and the most blocks that it has: each has a tag and one word
USERS, ZONE, SIZE = 1_024, 39_936, 2
MOST = ZONE // SIZE
COUNT = 10_000
# ms that a line takes at most in a full zone
BOUNDS = {"block and unblock": 0.2, "fetch": 0.1}

failures = []


def first_word(number):
    """The first usable word of the block with this number, if all before it are used."""
    return USERS + SIZE * number + 1


def taken(numbers):
    return [("block 1", f"at {first_word(number)}") for number in numbers]


def given_back(numbers):
    return [(f"unblock {first_word(number)}", "done") for number in numbers]


def session(command, lines):
    """The seconds of a session of these lines, each of which has its reply."""
    typed, replies = ("".join(f"{it}\n" for it in column).encode() for column in zip(*lines))
    time, shown = timed(command, input=typed, stdout=subprocess.PIPE)
    assert shown == replies, "each line is answered"
    return time.seconds


def medians(command, runs, sessions):
    """The median of the seconds of each session, after a run that doesn't count."""
    times = {name: [] for name in sessions}
    for number in range(runs + 1):
        for name, lines in sessions.items():
            seconds = session(command, lines)
            if number > 0:
                times[name].append(seconds)
    return {name: statistics.median(them) for name, them in times.items()}


def beside_patches(command, runs):
    """Many blocks come and go."""
    numbers = range(COUNT)
    sessions = {
        "taken and given back in that order": taken(numbers) + given_back(numbers),
        "taken and given back in the other order": taken(numbers) + given_back(reversed(numbers)),
        "patches": [("patch A 0 41", "done")] * (2 * COUNT),
    }
    found = medians(command, runs, sessions)
    *blocks, patches = found
    for name in found:
        print(f"{2 * COUNT:,} lines, {name}: {1_000 * found[name]:.0f} ms")
    failures.extend(f"blocks {name} take longer than as many patches" for name in blocks if found[name] > found[patches])


def in_full_zone(command, runs):
    """Lines on the last block of a zone that is full."""
    full, last = taken(range(MOST)), MOST - 1
    sessions = {
        "": full,
        "block and unblock": full + (given_back([last]) + taken([last])) * (COUNT // 2),
        "fetch": full + [(f"fetch {first_word(last)}", "0")] * COUNT,
    }
    found = medians(command, runs, sessions)
    for name, most in BOUNDS.items():
        took = 1_000 * (found[name] - found[""]) / COUNT
        print(f"in a full zone of {MOST:,} blocks: {name}: {took:.4f} ms a line")
        if took > most:
            failures.append(f"{name} take {took:.4f} ms in a full zone, and may take {most} ms")


def memory(command):
    """The most memory of a session doesn't grow."""
    lines = taken(range(MOST)) + given_back(range(MOST))
    typed, replies = ("".join(f"{it}\n" for it in column).encode() for column in zip(*lines))
    with subprocess.Popen(command, stdin=subprocess.PIPE, stdout=subprocess.PIPE) as process:
        answered(process, typed, replies)
        first = most_memory(process)
        answered(process, typed, replies)
        after = most_memory(process)
        process.stdin.close()
    if first is None:
        print("memory: it can't be measured")
        return
    print(f"memory of a session: {first} KiB once the zone was full, and {after} KiB once it was so again")
    if after >= first + PAGE_KIB:
        failures.append(f"the memory grows by {after - first} KiB")


def main():
    made = arguments.parser(__doc__)
    made.add_argument("--runs", type=arguments.positive, default=11, metavar="N", help="how many runs count (default: 11)")
    options = arguments.read(made)
    print(machine())
    with tempfile.TemporaryDirectory() as folder:
        file = pathlib.Path(folder) / "pack"
        (content,) = packs.sound(1, CYLINDERS, [(b"A.", b"ABCDE", range(7, 9))])
        file.write_bytes(content)
        command = [options.program, file, "boot"]
        beside_patches(command, options.runs)
        in_full_zone(command, options.runs)
        memory(command)
    arguments.end("memory", failures, "no line takes longer than it may, and no memory is taken")


if __name__ == "__main__":
    main()
