"""What the tools have in common that see a run step by step: examples/calls and examples/steps.

The program makes the run first: what it refuses is told as it tells it, and the steps of the run are known. Then the
model of bench/runs.py makes it, before the eyes of a Watcher, and what it comes to is compared with what the program
told.
"""
import argparse
import sys

import runs

STEPS_OF_A_SECOND = 100000  # that a model makes, about
LONG = 60 * STEPS_OF_A_SECOND  # steps that are worth a word beforehand


def parser(name, text):
    """Reads the tool's options; the words behind them are those of ./jos."""
    made = argparse.ArgumentParser(
        prog=name, usage=f"examples/{name} [OPTIONS] exo|run [OPTIONS OF ./jos] WORDS..", description=text,
        formatter_class=argparse.RawDescriptionHelpFormatter, allow_abbrev=False,
    )
    words = "the words of a run, as ./jos takes them"
    made.add_argument("words", metavar="exo|run ..", nargs=argparse.REMAINDER, help=words)
    return made


def number_of(word, base, least, what):
    """The number that a word of an option is."""
    try:
        number = int(word, base)
    except ValueError:
        number = -1
    if not least <= number < 2 ** 32:
        raise argparse.ArgumentTypeError(f"'{word}' is no {what}")
    return number


def id_of(word):
    return number_of(word, 16, 1, "id, which is hexadecimal digits")


def address_of(word):
    return number_of(word, 16, 0, "address, which is hexadecimal digits")


def count_of(word):
    return number_of(word, 10, 0, "number")


def add_of(made):
    words = "this environment alone; it may be given several times"
    made.add_argument("--of", metavar="ID", type=id_of, action="append", help=words)


def add_strings(made):
    words = "how many bytes of a buffer are shown; 32"
    made.add_argument("--strings", metavar="N", type=count_of, default=32, help=words)


class Screen(runs.Progress):
    """Lines go to standard output, and how far the model has come to a terminal between them."""

    def __init__(self, name, steps):
        super().__init__(name, steps)
        if steps >= LONG:
            minutes = round(steps / STEPS_OF_A_SECOND / 60)
            print(f"{name}: the model makes {steps:,} steps, which takes some {minutes} minutes", file=sys.stderr)

    def line(self, text):
        self.ends()
        print(text)


def whole_run(words):
    """The console's input, and what the program tells. Where it makes no run, the tool ends as the program does."""
    runs.build()
    if not runs.PROGRAM.exists():
        sys.exit(f"there is no program {runs.PROGRAM}; ./jos makes it")
    data = runs.console_input()
    return data, runs.by_program(words, data)


def ended(name, told, run, end, whole=None):
    """The tool ends with the program's note and its status; or, where the model has come to another run, with that.
    `told` is what the program tells of the steps that the model has made, and `whole` of all, where these are more."""
    whole = whole or told
    sys.stdout.flush()
    print(whole.note, file=sys.stderr)
    differs = runs.difference(told, run, end)
    sys.exit(f"{name}: this is not the program's run: {differs}" if differs else whole.status)
