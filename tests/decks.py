"""An independent model of document 01's decks: the reader, the translator, the
line runner and the listing, written from the documents and not from the code. It
rests on `model`, beside it. `python3 tests/decks.py` holds it to document 01's
numbers, and the line rules to the clock.
"""

import random
from collections import Counter, namedtuple
from itertools import accumulate

import model
from model import digest

# ---------------------------------------------------------------- deck

Line = namedtuple("Line", "operation second operand")

# A row of document 01's table: what the second byte and the operand may be, and
# the words. LABEL stands for the label numbers below K.
Row = namedtuple("Row", "kind operations seconds operands words")

LABEL = "label"

ROWS = (
    Row("M", range(0, 16), range(2), range(16), 1),
    Row("I", range(16, 24), range(1), range(256), 1),
    Row("GOTO", range(24, 25), range(1), LABEL, 1),
    Row("JUMP IF", range(25, 26), range(4), LABEL, 1),
    Row("JUMP UNLESS", range(26, 27), range(4), LABEL, 2),
    Row("NOP", range(27, 28), range(1), range(1), 1),
)


def row_of(line):
    """The row of the line's operation, None above 27."""
    return next((row for row in ROWS if line.operation in row.operations), None)


def operands_of(row, label_count):
    return range(label_count) if row.operands == LABEL else row.operands


# A refused deck has no labels and no lines here.
Sections = namedtuple("Sections", "refusal labels lines")


def two_bytes(deck, at):
    return deck[at] + 256 * deck[at + 1]


def sections(deck):
    """The labels and the lines, or what the counts and the length are refused with."""
    if len(deck) < 1:
        return Sections(1, [], [])
    labels_end = 1 + 2 * deck[0]
    if len(deck) < labels_end:
        return Sections(1, [], [])
    lines_start = labels_end + 2
    if len(deck) < lines_start:
        return Sections(1, [], [])
    line_count = two_bytes(deck, labels_end)
    if line_count > 256:
        return Sections(3, [], [])
    lines_end = lines_start + 3 * line_count
    if len(deck) < lines_end:
        return Sections(1, [], [])
    if len(deck) > lines_end:
        return Sections(2, [], [])
    return Sections(
        0,
        [two_bytes(deck, at) for at in range(1, labels_end, 2)],
        [Line(*deck[at:at + 3]) for at in range(lines_start, lines_end, 3)])


def addresses_of(lines):
    """The count of words before each line; the last one, past the last line, is W."""
    return [0, *accumulate(row_of(line).words for line in lines)]


def refusal_of_line(line, label_count):
    row = row_of(line)
    if row is None:
        return 5
    if line.second not in row.seconds:
        return 6
    if line.operand not in operands_of(row, label_count):
        return 7
    return 0


def check(deck):
    """The refusal number, 0 if there is none."""
    refusal, labels, lines = sections(deck)
    if refusal != 0:
        return refusal
    for label in labels:
        if label >= len(lines):
            return 4
    for line in lines:
        refusal = refusal_of_line(line, len(labels))
        if refusal != 0:
            return refusal
    if addresses_of(lines)[-1] > 256:
        return 8
    return 0


# ---------------------------------------------------------------- translator


def instructions_of(line, p, targets):
    """The instructions of the line at address p; targets are the labels' addresses."""
    operation, second, operand = line
    kind = row_of(line).kind
    if kind == "M":
        return [("M", second, operation, operand)]
    if kind == "I":
        return [("I", operation - 16, operand)]
    if kind == "GOTO":
        return [("GOTO", targets[operand])]
    if kind == "JUMP IF":
        return [("J", second, targets[operand])]
    if kind == "JUMP UNLESS":
        return [("J", second, (p + 2) % 256), ("GOTO", targets[operand])]
    return [("S", 0)]


def translate(deck, room):
    """The refusal number and the words, for an output of `room` words."""
    refusal = check(deck)
    if refusal != 0:
        return refusal, []
    _, labels, lines = sections(deck)
    addresses = addresses_of(lines)
    targets = [addresses[label] for label in labels]
    words = []
    for line in lines:
        for instruction in instructions_of(line, len(words), targets):
            refusal, word = model.encode(*instruction)
            assert refusal == 0, instruction
            words.append(word)
    if room < len(words):
        return 9, []
    return 0, words


# ---------------------------------------------------------------- line runner

# What the line rules speak of. The cells are a list beside it.
State = namedtuple("State", "position acc flags")

LineRun = namedtuple("LineRun", "refusal lines clocks acc flags position pc cells")


def step(labels, lines, cells, state):
    """One line by the line rules: the state after it, and the words executed."""
    operation, second, operand = lines[state.position]
    kind = row_of(lines[state.position]).kind
    on = state._replace(position=state.position + 1)
    if kind == "M":
        _, result, flags = model.unit(operation, state.acc, cells[operand], state.flags)
        if second == 1:
            return on._replace(acc=result, flags=flags), 1
        cells[operand] = result
        return on._replace(flags=flags), 1
    if kind == "I":
        _, result, flags = model.unit(operation - 16, state.acc, operand, state.flags)
        return on._replace(acc=result, flags=flags), 1
    if kind == "NOP":
        return on, 1
    jumped = state._replace(position=labels[operand])
    if kind == "GOTO":
        return jumped, 1
    flag = model.bit(state.flags, second)
    if kind == "JUMP IF":
        return (jumped if flag == 1 else on), 1
    return (on, 1) if flag == 1 else (jumped, 2)


def run_lines(deck, cells, asked):
    """The cells handed in are not touched; the answer has its own."""
    cells = list(cells)
    refusal = check(deck)
    if refusal == 0 and len(cells) != 16:
        refusal = 12
    if refusal != 0:
        return LineRun(refusal, 0, 0, 0, 0, 0, 0, cells)
    _, labels, lines = sections(deck)
    state = State(position=0, acc=0, flags=0)
    count = clocks = 0
    while count < asked and state.position < len(lines):
        state, words = step(labels, lines, cells, state)
        count += 1
        clocks += 3 * words
    pc = addresses_of(lines)[state.position] % 256
    return LineRun(0, count, clocks, state.acc, state.flags, state.position, pc, cells)


# ---------------------------------------------------------------- listing


def listing(deck):
    """The text that the listing program prints."""
    refusal, words = translate(deck, 256)
    if refusal != 0:
        return f"refused {refusal}\n".encode()
    rows = [f"{place:02X} {word:03X}\n" for place, word in enumerate(words)]
    return (f"words {len(words)}\n" + "".join(rows)).encode()


# ---------------------------------------------------------------- lines and clocks


def listing_in(deck, room):
    """The text for an output of so many bytes. That a shorter one gets 9 is the
    project's reading; document 01 has no number for it.
    """
    text = listing(deck)
    return (9, b"") if room < len(text) else (0, text)


def agree(deck, cells, asked):
    """The translated image, freshly loaded and clocked for the clocks that the
    line runner reports, ends where the lines end.
    """
    refusal, image = translate(deck, 256)
    assert refusal == 0, deck.hex()
    run = run_lines(deck, cells, asked)
    clocked_cells = list(cells)
    refusal, record = model.run(image, clocked_cells, model.FRESH, run.clocks)
    assert refusal == run.refusal == 0, deck.hex()
    assert record.stage == model.FETCH, deck.hex()
    assert (record.acc, record.sr, record.pc) == (run.acc, run.flags, run.pc), deck.hex()
    assert clocked_cells == run.cells, deck.hex()


def agreement(deck, asked):
    """The text of the program `agree`, whose runs begin with cells of 0."""
    run = run_lines(deck, [0] * 16, asked)
    if run.refusal != 0:
        return f"refused {run.refusal}\n".encode()
    return f"agree: lines {run.lines}, clocks {run.clocks}\n".encode()


# ---------------------------------------------------------------- random decks


def deck_of(labels, lines):
    numbers = [number for label in labels for number in (label % 256, label // 256)]
    numbers += [len(lines) % 256, len(lines) // 256]
    return bytes([len(labels), *numbers, *(field for line in lines for field in line)])


def random_word_count(generator):
    return generator.choice((
        generator.randrange(0, 4), generator.randrange(4, 40), generator.randrange(40, 250),
        generator.randrange(250, 256), 256, 256, 257, generator.randrange(258, 513)))


def random_label_count(generator, least):
    return generator.choice((least, 1, generator.randrange(1, 9), generator.randrange(1, 256), 255))


def random_operations(generator, line_count, unless_count, label_count):
    """Operations of which `unless_count` are 26, half of the time the last one."""
    choices = (range(24), (*range(24), 25, 27), range(28), (24, 25, 27), (27,))
    barred = (26,) if label_count > 0 else (24, 25, 26)
    others = [operation for operation in generator.choice(choices) if operation not in barred]
    operations = generator.choices(others, k=line_count - unless_count) + [26] * unless_count
    kept = generator.choice((0, 1)) if unless_count > 0 else 0
    shuffled = operations[:line_count - kept]
    generator.shuffle(shuffled)
    return shuffled + operations[line_count - kept:]


def random_line(generator, operation, label_count):
    row = row_of(Line(operation, 0, 0))
    operands = operands_of(row, label_count)
    return Line(operation, generator.choice(row.seconds), generator.choice(operands))


def random_deck(generator, word_count=None):
    """A deck at fault in nothing, or only in W above 256. W is `word_count`, at
    most 512, if that is given.
    """
    if word_count is None:
        word_count = random_word_count(generator)
    fewest, most = (word_count + 1) // 2, min(word_count, 256)
    line_count = generator.choice((fewest, most, generator.randint(fewest, most)))
    unless_count = word_count - line_count
    label_count = 0
    if line_count > 0:
        label_count = random_label_count(generator, least=min(unless_count, 1))
    labels = [generator.choice((0, line_count - 1, generator.randrange(line_count)))
              for _ in range(label_count)]
    operations = random_operations(generator, line_count, unless_count, label_count)
    return deck_of(labels, [random_line(generator, operation, label_count)
                            for operation in operations])


# Each damage takes the generator and a deck, and gives a deck.


def truncated(generator, deck):
    return deck[:generator.randrange(len(deck) + 1)]


def cut_by_one(generator, deck):
    return deck[:-1]


def extended(generator, deck):
    return deck + generator.randbytes(generator.choice((1, 2, 3, generator.randrange(1, 100))))


def overlong(generator, deck):
    """To the 1,282 bytes that the listing program reads, and above."""
    length = generator.choice((1282, 1283, generator.randrange(1283, 1401)))
    return deck + generator.randbytes(max(length - len(deck), 0))


def put(deck, at, *numbers):
    return deck[:at] + bytes(numbers) + deck[at + len(numbers):]


def bytes_changed(generator, deck):
    for _ in range(generator.randrange(1, 4)):
        if len(deck) > 0:
            deck = put(deck, generator.randrange(len(deck)), generator.randrange(256))
    return deck


def label_count_changed(generator, deck):
    label_count = deck[0] if len(deck) > 0 else 0
    count = generator.choice((label_count - 1, label_count + 1, generator.randrange(256)))
    return put(deck, 0, count % 256)


def line_count_changed(generator, deck):
    refusal, labels, lines = sections(deck)
    if refusal != 0:
        return bytes_changed(generator, deck)
    count = generator.choice((
        len(lines) - 1, len(lines) + 1, generator.randrange(257), 257,
        generator.randrange(257, 65536), 65535))
    return put(deck, 1 + 2 * len(labels), count % 256, count // 256 % 256)


def label_out_of_range(generator, deck):
    refusal, labels, lines = sections(deck)
    if refusal != 0 or labels == []:
        return bytes_changed(generator, deck)
    labels[generator.randrange(len(labels))] = generator.choice((
        len(lines), len(lines) + 1, generator.randrange(len(lines), 65536), 65535))
    return deck_of(labels, lines)


def forbidden(line, field, label_count):
    """The bytes that this field may not be; the allowed ones count from 0."""
    if field == "operation":
        return range(28, 256)
    row = row_of(line)
    if row is None:
        return range(0)
    allowed = row.seconds if field == "second" else operands_of(row, label_count)
    return range(len(allowed), 256)


def field_out_of_range(generator, deck, field):
    refusal, labels, lines = sections(deck)
    places = [place for place, line in enumerate(lines)
              if len(forbidden(line, field, len(labels))) > 0]
    if refusal != 0 or places == []:
        return bytes_changed(generator, deck)
    place = generator.choice(places)
    values = forbidden(lines[place], field, len(labels))
    value = generator.choice((values[0], generator.choice(values), values[-1]))
    lines[place] = lines[place]._replace(**{field: value})
    return deck_of(labels, lines)


def operation_out_of_range(generator, deck):
    return field_out_of_range(generator, deck, "operation")


def second_out_of_range(generator, deck):
    return field_out_of_range(generator, deck, "second")


def operand_out_of_range(generator, deck):
    return field_out_of_range(generator, deck, "operand")


def empty(generator, deck):
    return b""


def noise(generator, deck):
    return generator.randbytes(generator.choice((
        generator.randrange(1, 8), generator.randrange(8, 100), generator.randrange(100, 1401))))


def longest(generator, deck):
    """The longest deck that can be accepted, 1,281 bytes, and up to two bytes after it."""
    labels = [generator.randrange(256) for _ in range(255)]
    operations = random_operations(generator, 256, 0, 255)
    lines = [random_line(generator, operation, 255) for operation in operations]
    return deck_of(labels, lines) + generator.randbytes(generator.randrange(3))


FIELDS_OUT_OF_RANGE = (
    label_out_of_range, operation_out_of_range, second_out_of_range, operand_out_of_range,
)

# The fields stand in it three times: each is one refusal of its own.
DAMAGES = 3 * FIELDS_OUT_OF_RANGE + (
    truncated, cut_by_one, extended, overlong, bytes_changed, label_count_changed,
    line_count_changed, empty, noise, longest,
)


def damaged(generator, deck):
    """One to three damages: of two faults the order of refusals decides. At most
    1,400 bytes.
    """
    for _ in range(generator.choice((1, 1, 2, 3))):
        deck = generator.choice(DAMAGES)(generator, deck)
    return deck[:1400]


def any_deck(generator):
    """Every refusal 1 to 8 and acceptance come often."""
    deck = random_deck(generator)
    return damaged(generator, deck) if generator.randrange(2) == 0 else deck


# ---------------------------------------------------------------- numbers to meet

NOP = Line(27, 0, 0)

UNLESS_ZERO = Line(26, 3, 0)

EXAMPLE = bytes.fromhex("01 0100 0300 130003 110001 1A0300")

EXAMPLE_LISTING = b"""\
words 4
00 B03
01 901
02 704
03 101
"""

# The last allowed values of a line's fields, where K is 2.
LIMITS = (
    Line(0, 1, 15), Line(15, 1, 15), Line(16, 0, 255), Line(23, 0, 255),
    Line(24, 0, 1), Line(25, 3, 1), Line(26, 3, 1), Line(27, 0, 0),
)

# Decks with several faults, and the number that document 01's order puts first.
ORDER = (
    ("01 00", 1),                            # label short, L missing
    ("01 FFFF", 1),                          # L missing, label not below any L
    ("01 FFFF 01", 1),                       # L short, label not below any L
    ("00 0101", 3),                          # L above 256, records missing
    ("01 0900 0101", 3),                     # L above 256, label not below L
    ("01 0900 0100 FF00", 1),                # record short, label not below L
    ("01 0900 0100 FF0000 00", 2),           # bytes after, label not below L, operation
    ("01 0100 0100 FF0000", 4),              # label not below L, operation
    ("02 0000 0001 0100 FF0000", 4),         # the second label not below L, operation
    ("00 0100 1CFFFF", 5),                   # operation, the rest of its line
    ("00 0200 1B0100 1C0000", 6),            # second byte, the next line's operation
    ("00 0100 0002FF", 6),                   # second byte, cell
    ("00 0100 180100", 6),                   # second byte, label missing
    ("00 0100 1A0400", 6),                   # second byte, label missing
    ("00 0200 1A0300 1C0000", 7),            # label missing, the next line's operation
    ("00 0200 000110 100100", 7),            # cell, the next line's second byte
    ("01 0000 0200 1B0001 190301", 7),       # NOP operand, label missing
)


def hold_to_the_numbers():
    assert translate(b"\0\0\0", 0) == (0, [])
    assert check(b"") == 1
    assert check(b"\x00\x01\x01") == 3
    assert translate(deck_of([0], [NOP] * 256), 256) == (0, [0x000] * 256)
    top = deck_of([0], [NOP] * 254 + [UNLESS_ZERO])
    assert translate(top, 256) == (0, [0x000] * 254 + [0x700, 0x100])
    assert check(deck_of([0], [NOP] * 255 + [UNLESS_ZERO])) == 8
    assert listing(EXAMPLE) == EXAMPLE_LISTING
    for asked in (7, 8, 2**32 - 1):
        assert run_lines(EXAMPLE, [0] * 16, asked) == (0, 7, 27, 0, 8, 3, 4, [0] * 16)
    agree(EXAMPLE, [0] * 16, 7)
    agree(top, [0] * 16, 600)


def hold_to_the_limits():
    def answer(line):
        return check(deck_of([0, 0], [line]))

    for line in LIMITS:
        assert answer(line) == 0, line
        assert answer(line._replace(second=0, operand=0)) == 0, line
        assert answer(line._replace(second=line.second + 1)) == 6, line
        if line.operand < 255:
            assert answer(line._replace(operand=line.operand + 1)) == 7, line
    assert answer(Line(28, 0, 0)) == 5


def hold_to_the_order():
    for text, refusal in ORDER:
        assert check(bytes.fromhex(text)) == refusal, text
    above = deck_of([0], [UNLESS_ZERO] * 129)
    assert check(above) == 8
    assert check(deck_of([0], [UNLESS_ZERO] * 129 + [NOP._replace(operand=1)])) == 7
    assert translate(above, 0) == (8, [])
    assert translate(EXAMPLE, 4)[0] == 0
    assert translate(EXAMPLE, 3) == (9, [])
    for count in (0, 15, 17):
        cells = [0x5A] * count
        assert run_lines(EXAMPLE, cells, 7) == (12, 0, 0, 0, 0, 0, 0, cells)
        assert run_lines(above, cells, 7) == (8, 0, 0, 0, 0, 0, 0, cells)


def hold_to_the_clock(count):
    """On `count` accepted decks; gives the runs that passed the last line, and
    those of them with W = 256, whose PC is 0.
    """
    generator = random.Random(320)
    passed = passed_the_top = 0
    for number in range(count):
        word_count = 256 if number % 4 == 0 else min(random_word_count(generator), 256)
        deck = random_deck(generator, word_count)
        cells = [generator.randrange(256) for _ in range(16)]
        asked = generator.choice((generator.randrange(20), 300))
        agree(deck, cells, asked)
        if run_lines(deck, cells, asked).position == len(sections(deck).lines):
            passed += 1
            passed_the_top += word_count == 256
    assert passed > passed_the_top > 0
    return passed, passed_the_top


def hold_the_mix(count):
    """How often each refusal and acceptance comes; and 1,282 bytes say it all."""
    generator = random.Random(1)
    seen = Counter()
    for _ in range(count):
        deck = any_deck(generator)
        assert listing(deck) == listing(deck[:1282]), deck.hex()
        seen[check(deck)] += 1
    assert all(seen[refusal] > count // 100 for refusal in range(9)), seen
    assert sum(seen.values()) == count
    return seen


def hold_to_the_document():
    """Says in one line what was held."""
    hold_to_the_numbers()
    hold_to_the_limits()
    hold_to_the_order()
    count = 300
    passed, passed_the_top = hold_to_the_clock(count)
    seen = hold_the_mix(4000)
    return (f"held: document 01's numbers on decks, the limits of {len(LIMITS)} lines,"
            f" {len(ORDER)} orders of refusals,"
            f" {count} line runs to the clock ({passed} passed the last line,"
            f" {passed_the_top} of them the last entry), {sum(seen.values())} decks of the mix"
            f" ({seen[0]} accepted)")


# ---------------------------------------------------------------- printing


def report(name, deck):
    """What the calls answer and leave in lent memory, which they find full of 65535
    and 255.
    """
    output = [65535] * 300
    refusal, words = translate(deck, len(output))
    output[:len(words)] = words
    listing_refusal, text = listing_in(deck, 2000)
    buffer = [255] * 2000
    buffer[:len(text)] = text
    return (f"deck {name}: check {check(deck)},"
            f" translate {refusal} {len(words)} {digest(output)},"
            f" listing {listing_refusal} {len(text)} {digest(buffer)},"
            f" {report_lines(deck, 1000)}")


def report_lines(deck, asked):
    run = run_lines(deck, [7 * cell + 3 for cell in range(16)], asked)
    return (f"lines {run.refusal} {run.lines} {run.clocks} {run.acc} {run.flags}"
            f" {run.position} {run.pc} {digest(run.cells)}")


# Decks by rule, as crates/vectors/src/generated.rt has them.


def nops(line_count, last):
    """NOP lines after one label at line 0; the last line has this operation."""
    lines = [(27, 0, 0)] * (line_count - 1) + [(last, 0 if last == 27 else 3, 0)]
    return deck_of([0], lines)


def mixed(number):
    """Four labels and 64 lines, in which all operations come up."""
    labels = [(label * 13 + number * 7 + 5) % 64 for label in range(4)]
    return deck_of(labels, [mixed_line(line, number) for line in range(64)])


def mixed_line(line, number):
    operation = (line * 11 + number * 7) % 28
    if operation <= 15:
        return operation, (line + number) % 2, (line * 5 + number * 3) % 16
    if operation <= 23:
        return operation, 0, (line * 37 + number * 91) % 256
    if operation == 27:
        return operation, 0, 0
    second = 0 if operation == 24 else (line * 3 + number) % 4
    return operation, second, (line + number) % 4


SMALL = {
    "of no lines": "00 00 00",
    "of no bytes": "",
    "of 257 lines": "00 01 01",
    "without its labels": "02 00 00 00",
    "without its count": "01 00 00 01",
    "without its records": "00 01 00 1B 00",
    "with a byte more": "00 01 00 1B 00 00 00",
    "with a label past the lines": "01 01 00 01 00 1B 00 00",
    "with operation 28": "00 01 00 1C 00 00",
    "with a second byte 2": "00 01 00 00 02 10",
    "with cell 16": "00 01 00 00 01 10",
    "with label K": "01 00 00 01 00 18 00 01",
    "with a NOP 1": "00 01 00 1B 00 01",
    "with a label at line 256": "01 00 01 01 00 1B 00 00",
    "with I and a second byte 1": "00 01 00 10 01 00",
    "with GOTO and a second byte 1": "01 00 00 01 00 18 01 00",
    "with jump if flag 4": "01 00 00 01 00 19 04 00",
    "with jump unless flag 4": "01 00 00 01 00 1A 04 00",
    "with NOP and a second byte 1": "00 01 00 1B 01 00",
    "with 4 and 5": "01 01 00 01 00 1C 00 00",
    "with 5, 6 and 7": "00 01 00 1C FF FF",
    "with 6 and 7": "00 01 00 1B 01 01",
    "with 7, then 5": "00 02 00 1B 00 01 1C 00 00",
    "with 2 and 4": "01 01 00 01 00 1B 00 00 00",
    "with 3 and 2": "00 01 01" + "00" * 997,
}

# 255 labels, all at line 0, and one line, a GOTO to the last of them.
MANY_LABELS = deck_of([0] * 255, [(24, 0, 254)])

EXAMPLE_DECK = bytes.fromhex("01 01 00 03 00 13 00 03 11 00 01 1A 03 00")


def print_vectors():
    for name, text in SMALL.items():
        print(report(name, bytes.fromhex(text)))
    print(report("of 255 labels", MANY_LABELS))
    print_asked(MANY_LABELS, 70000)
    print(report("of 256 NOPs", nops(256, 27)))
    print(report("of 254 NOPs and a jump unless Z", nops(255, 26)))
    over = nops(256, 26)
    print(report("of 255 NOPs and a jump unless Z", over))
    print_room(over, 3)
    print_cells(over, 15)
    for number in range(12):
        print(report("mixed", mixed(number)))
    print(report("example", EXAMPLE_DECK))
    print_limits(EXAMPLE_DECK)


def print_room(deck, room):
    output = [65535] * room
    refusal, words = translate(deck, room)
    output[:len(words)] = words
    print(f"output of {room}: translate {refusal} {len(words)} {digest(output)}")


def print_cells(deck, count):
    run = run_lines(deck, [1] * count, 1000)
    print(f"cells {count}: lines {run.refusal} {run.lines} {run.clocks} {digest(run.cells)}")


def print_text(deck, room):
    refusal, text = listing_in(deck, room)
    buffer = [255] * room
    buffer[:len(text)] = text
    print(f"text of {room}: listing {refusal} {len(text)} {digest(buffer)}")


def print_asked(deck, asked):
    print(f"asked {asked}, {report_lines(deck, asked)}")


def print_limits(deck):
    for room in 4, 3:
        print_room(deck, room)
    for count in 15, 16, 17:
        print_cells(deck, count)
    for room in 36, 35:
        print_text(deck, room)
    for asked in (*range(9), 2**32 - 1):
        print_asked(deck, asked)


if __name__ == "__main__":
    print(hold_to_the_document())
