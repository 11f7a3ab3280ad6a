"""Run by other scripts: the arguments of those in check/ and bench/, read in one way, the program that they run, and how they end."""
import argparse
import pathlib
import random
import sys

import building
from building import TOP


def parser(description):
    """A parser with `--help`, which shows this text, and `--program`."""
    made = argparse.ArgumentParser(description=description, formatter_class=argparse.RawDescriptionHelpFormatter)
    made.add_argument("--program", type=built, metavar="PATH", help="the built program (default: it is built, and proved where it changed)")
    return made


def seeded(made):
    """The parser with `--seed`, of random choices that the same seed makes again."""
    made.add_argument("--seed", type=int, default=random.randrange(2**32), metavar="N", help="of the random choices (default: another one each time)")
    return made


def built(path):
    """The path of a program that is there, whole."""
    program = pathlib.Path(path).resolve()
    if not program.is_file():
        raise argparse.ArgumentTypeError(f"{path} isn't there: ./do build makes crates/alto/out/alto")
    return program


def positive(text):
    """A number from 1 on."""
    number = int(text)
    if number < 1:
        raise argparse.ArgumentTypeError(f"{text} is less than 1")
    return number


def read(made):
    """What the words of the process ask for. The program is built where none is named."""
    options = made.parse_args()
    options.program = options.program or building.build()
    return options


def end(name, failures, passed):
    """Tells of each failure, or how the script passed if there is none, and ends it with the status for that."""
    for failure in failures:
        print(f"{name}: {failure}")
    if not failures:
        print(f"{name}: {passed}")
    sys.exit(1 if failures else 0)
