"""Holds the programs `listing` and `agree` to the model of their texts, `decks.listing`
and `decks.agreement`, on random and damaged decks:
`python3 tests/hold_programs.py [COUNT [SEED]]`.
"""

import argparse
import fcntl
import random
import struct
import subprocess
import sys
import tempfile
import termios
import time
from collections import Counter
from pathlib import Path

import decks

CRATES = Path(__file__).resolve().parent.parent / "crates"

# In seconds: a program that takes longer over one deck is ended.
LIMIT = 60


def program(name):
    """Where `rt run` leaves a program when the crate is proved."""
    return CRATES / name / "out" / name


def command(name, arguments):
    return [program(name), *arguments]


def started(words, standard_input):
    return subprocess.Popen(words, bufsize=0, stdin=standard_input, stdout=subprocess.PIPE,
                            stderr=subprocess.PIPE)


def ended(process, deck=None):
    """The status, negative if the program was ended by a signal, and what it wrote on
    standard output and on standard error.
    """
    try:
        written = process.communicate(deck, timeout=LIMIT)
    except subprocess.TimeoutExpired:
        process.kill()
        written = process.communicate()
    return process.returncode, *written


# Three ways to hand the deck to a program.


def at_once(words, deck, generator):
    return ended(started(words, subprocess.PIPE), deck)


def from_a_file(words, deck, generator):
    with tempfile.TemporaryFile() as file:
        file.write(deck)
        file.seek(0)
        return ended(started(words, file))


def unread(pipe):
    (count,) = struct.unpack("i", fcntl.ioctl(pipe, termios.FIONREAD, bytes(4)))
    return count


def wait_until_read(process):
    deadline = time.monotonic() + LIMIT
    while unread(process.stdin) > 0 and process.poll() is None and time.monotonic() < deadline:
        time.sleep(0.0002)


def in_pieces(words, deck, generator):
    """A piece is written when the one before it was read, so each read is short."""
    process = started(words, subprocess.PIPE)
    while len(deck) > 0:
        size = generator.choice((1, 2, 7, generator.randrange(1, 500)))
        try:
            process.stdin.write(deck[:size])
        except BrokenPipeError:
            break
        wait_until_read(process)
        deck = deck[size:]
    return ended(process)


WAYS = (at_once, from_a_file, in_pieces)


def holds(words, deck, expected, way, generator, complaint=b""):
    """Whether the program wrote what the model writes, and this on standard error; if
    not, says so.
    """
    status, written, complained = way(words, deck, generator)
    if (written, complained) == (expected, complaint) and status == 0:
        return True
    print(f"{' '.join(map(str, words))}")
    print(f"deck of {len(deck)} bytes, {way.__name__}: {deck.hex()}")
    print(f"expected: {expected}")
    print(f"came, with status {status}: {written}, {complained}")
    return False


def listing_holds(deck, way, generator):
    return holds(command("listing", []), deck, decks.listing(deck), way, generator)


def agree_holds(deck, way, generator):
    asked = generator.choice((0, 1, 7, generator.randrange(2000)))
    return holds(command("agree", [str(asked)]), deck, decks.agreement(deck, asked), way, generator)


USAGE = (b"usage: agree LINES < DECK, with LINES in decimal, 0 to 4294967295,"
         b" at most ten digits\n")

# Arguments of `agree` that are no number of lines, and some that are.
MALFORMED = ([], [""], ["x"], ["-1"], ["+7"], [" 7"], ["7 "], ["0x7"], ["4294967296"],
             ["9999999999"], ["00000000007"], ["7", "8"], ["7" * 5000])
NUMBERS = ("0", "7", "07", "0000000007", "4294967295")


def arguments_hold(generator):
    """On a deck that ends after 7 lines."""
    deck = decks.EXAMPLE
    return (all(holds(command("agree", arguments), deck, b"", at_once, generator, USAGE)
                for arguments in MALFORMED)
            and all(holds(command("agree", [number]), deck,
                          decks.agreement(deck, int(number)), at_once, generator)
                    for number in NUMBERS))


def missing(held):
    """Document 01's numbers, 0 for acceptance, that no deck had."""
    return [refusal for refusal in range(9) if held[refusal] == 0]


def hold(count, seed):
    generator = random.Random(seed)
    if not arguments_hold(generator):
        return 1
    held = Counter()
    for number in range(count):
        deck = decks.any_deck(generator)
        way = WAYS[number % len(WAYS)]
        if not (listing_holds(deck, way, generator) and agree_holds(deck, way, generator)):
            return 1
        held[decks.check(deck)] += 1
    print(f"{sum(held.values())} decks held: {held[0]} accepted,",
          ", ".join(f"{held[refusal]} refused {refusal}" for refusal in range(1, 9)))
    if missing(held) != []:
        print("not held, since no deck had it (0 is acceptance):", *missing(held))
        return 1
    return 0


def main():
    parser = argparse.ArgumentParser(description="Holds the programs to their model.")
    parser.add_argument("count", nargs="?", type=int, default=2000, help="of decks")
    parser.add_argument("seed", nargs="?", type=int, default=1)
    asked = parser.parse_args()
    absent = [name for name in ("listing", "agree") if not program(name).is_file()]
    for name in absent:
        print(f"no {program(name)}: `rt run < stdin` in {CRATES / name} builds it")
    if absent != []:
        return 2
    return hold(asked.count, asked.seed)


if __name__ == "__main__":
    sys.exit(main())
