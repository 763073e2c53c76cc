"""An independent model of document 01's words, arithmetic unit, clock table,
clock, instruction and run, written from the documents and not from the code.
tests/decks.py has the decks, and tests/vectors.py writes what `vectors` must print.
"""

import random
from collections import namedtuple

# ---------------------------------------------------------------- words

# The twelve bits of a word, bit 11 first. A digit is fixed for the kind; a run
# of one letter is a field, and fields stand in the order of document 01's table.
LAYOUTS = {
    "S": "0000kkkkkkkk",
    "GOTO": "0001tttttttt",
    "M": "001dmmmmcccc",
    "J": "01fftttttttt",
    "I": "1mmmiiiiiiii",
}

# Flag f of a jump is bit f of SR. The "function" column of document 003's jump
# table lists the flags the other way round and does not count.
JUMP_FLAGS = "OSCZ"


def field_letters(layout):
    return [letter for letter in dict.fromkeys(layout) if letter.isalpha()]


def fits(text, layout):
    return all(mark.isalpha() or mark == bit for bit, mark in zip(text, layout))


def cut(text, layout, letter):
    return int("".join(bit for bit, mark in zip(text, layout) if mark == letter), 2)


def decode(word):
    """The kind and its fields, or "refused" and the number."""
    if word > 4095:
        return "refused", (10,)
    text = format(word, "012b")
    (kind,) = [kind for kind, layout in LAYOUTS.items() if fits(text, layout)]
    layout = LAYOUTS[kind]
    return kind, tuple(cut(text, layout, letter) for letter in field_letters(layout))


def encode(kind, *fields):
    """The refusal number, 0 if there is none, and the word."""
    text = LAYOUTS[kind]
    letters = field_letters(text)
    assert len(letters) == len(fields)
    for letter, field in zip(letters, fields):
        width = text.count(letter)
        if field not in range(2**width):
            return 14, 0
        text = text.replace(letter * width, format(field, f"0{width}b"))
    return 0, int(text, 2)


# ---------------------------------------------------------------- arithmetic unit

# The flags of SR, bit 3 first.
FLAGS = "ZCSO"

Answer = namedtuple("Answer", "refusal result flags")


def signed(byte):
    return byte if byte < 128 else byte - 256


def overflows(exact):
    return exact not in range(-128, 128)


def bit(byte, number):
    return byte // 2**number % 2


def rotated_left(byte, count):
    text = format(byte, "08b")
    return int(text[count:] + text[:count], 2)


def rotated_right(byte, count):
    text = format(byte, "08b")
    return int(text[8 - count:] + text[:8 - count], 2)


def shifted_right_filled(byte, count):
    text = format(byte, "08b")
    return int(text[0] * count + text[:8 - count], 2)


class Row:
    """One mode: the flags it always sets, those it sets only if n > 0, and how.

    The functions take a, b and n; the result is reduced modulo 256 by the unit.
    A mode that does not set C or O has no function for it.
    """

    def __init__(self, sets, result, carry=None, overflow=None, if_moved=""):
        self.sets_unmoved = sets
        self.sets_moved = sets + if_moved
        self.result = result
        self.carry = carry
        self.overflow = overflow


UNIT = (
    # 0
    Row("ZCSO", lambda a, b, n: a + b,
        carry=lambda a, b, n: a + b > 255,
        overflow=lambda a, b, n: overflows(signed(a) + signed(b))),
    # 1
    Row("ZCSO", lambda a, b, n: a - b,
        carry=lambda a, b, n: a < b,
        overflow=lambda a, b, n: overflows(signed(a) - signed(b))),
    # 2
    Row("", lambda a, b, n: a),
    # 3
    Row("", lambda a, b, n: b),
    # 4
    Row("Z", lambda a, b, n: a & b),
    # 5
    Row("Z", lambda a, b, n: a | b),
    # 6
    Row("Z", lambda a, b, n: a ^ b),
    # 7
    Row("ZCSO", lambda a, b, n: b - a,
        carry=lambda a, b, n: b < a,
        overflow=lambda a, b, n: overflows(signed(b) - signed(a))),
    # 8
    Row("ZCSO", lambda a, b, n: b + 1,
        carry=lambda a, b, n: b == 255,
        overflow=lambda a, b, n: b == 127),
    # 9
    Row("ZCSO", lambda a, b, n: b - 1,
        carry=lambda a, b, n: b == 0,
        overflow=lambda a, b, n: b == 128),
    # A
    Row("", lambda a, b, n: rotated_left(b, n)),
    # B
    Row("", lambda a, b, n: rotated_right(b, n)),
    # C
    Row("", lambda a, b, n: b * 2**n, if_moved="ZC",
        carry=lambda a, b, n: bit(b, 8 - n)),
    # D
    Row("", lambda a, b, n: b // 2**n, if_moved="ZC",
        carry=lambda a, b, n: bit(b, n - 1)),
    # E
    Row("S", lambda a, b, n: shifted_right_filled(b, n), if_moved="ZC",
        carry=lambda a, b, n: bit(b, n - 1)),
    # F
    Row("ZCSO", lambda a, b, n: 0 - b,
        carry=lambda a, b, n: b > 0,
        overflow=lambda a, b, n: b == 128),
)


def unit(mode, a, b, status):
    if mode > 15:
        return Answer(14, 0, 0)
    if status > 15:
        return Answer(13, 0, 0)
    row = UNIT[mode]
    n = a % 8
    sets = row.sets_moved if n > 0 else row.sets_unmoved
    result = row.result(a, b, n) % 256
    flags = dict(zip(FLAGS, map(int, format(status, "04b"))))
    if "Z" in sets:
        flags["Z"] = int(result == 0)
    if "C" in sets:
        flags["C"] = int(row.carry(a, b, n))
    if "S" in sets:
        flags["S"] = bit(result, 7)
    if "O" in sets:
        flags["O"] = int(row.overflow(a, b, n))
    return Answer(0, result, 8 * flags["Z"] + 4 * flags["C"] + 2 * flags["S"] + flags["O"])


# ---------------------------------------------------------------- clock table

# A stage's place is its number.
STAGES = ("FETCH", "DECODE", "EXECUTE")
FETCH, DECODE, EXECUTE = range(3)

# The columns of the enables, in document 01's order.
ENABLES = ("PC.E", "Acc.E", "SR.E", "IR.E", "DR.E", "PMem.E", "DMem.E", "DMem.WE", "ALU.E")

Control = namedtuple("Control", "refusal enables mode mux1 mux2")

FETCH_ENABLES = "000101000"

DECODE_ENABLES = {
    "S": "000000000",
    "GOTO": "000000000",
    "M": "000010100",
    "J": "000000000",
    "I": "000000000",
}

# Enables, mode, MUX1 and MUX2 of EXECUTE, from SR and the fields of the kind.
EXECUTE_ROWS = {
    "S": lambda status, k: ("100000000", 0, 1, 0),
    "GOTO": lambda status, target: ("100000000", 0, 0, 0),
    "M": lambda status, d, mode, cell: (f"1{d}1000{1 - d}{1 - d}1", mode, 1, 1),
    "J": lambda status, flag, target: ("100000000", 0, 1 - bit(status, flag), 0),
    "I": lambda status, mode, immediate: ("111000001", mode, 1, 0),
}


def control(word, stage, status):
    """The row of the clock table; a refused one is all 0."""
    if word > 4095:
        return Control(10, "000000000", 0, 0, 0)
    if status > 15:
        return Control(13, "000000000", 0, 0, 0)
    kind, fields = decode(word)
    if stage == FETCH:
        return Control(0, FETCH_ENABLES, 0, 0, 0)
    if stage == DECODE:
        return Control(0, DECODE_ENABLES[kind], 0, 0, 0)
    return Control(0, *EXECUTE_ROWS[kind](status, *fields))


# ---------------------------------------------------------------- clock, instruction, run

# The registers and the stage that is next. The cells are a list beside it.
Record = namedtuple("Record", "pc ir dr acc sr stage")

FRESH = Record(pc=0, ir=0, dr=0, acc=0, sr=0, stage=FETCH)


def entry(image, pc):
    return image[pc] if pc < len(image) else 0x000


def stepped(pc):
    return 0 if pc == 255 else pc + 1


def edge(image, cells, record):
    """One clock by the clock table. Everything is taken from the values before
    the edge; a memory or unit that is not enabled puts out None, and None may
    not be written anywhere.
    """
    row = control(record.ir, record.stage, record.sr)
    enabled = {name for name, digit in zip(ENABLES, row.enables) if digit == "1"}
    low = record.ir % 256
    address = record.ir % 16
    mux1 = stepped(record.pc) if row.mux1 == 1 else low
    mux2 = record.dr if row.mux2 == 1 else low
    program_out = data_out = result = flags = None
    if "PMem.E" in enabled:
        program_out = entry(image, record.pc)
    if "DMem.E" in enabled and "DMem.WE" not in enabled:
        data_out = cells[address]
    if "ALU.E" in enabled:
        _, result, flags = unit(row.mode, record.acc, mux2, record.sr)
    if "DMem.E" in enabled and "DMem.WE" in enabled:
        cells[address] = result
    after = Record(
        pc=mux1 if "PC.E" in enabled else record.pc,
        ir=program_out if "IR.E" in enabled else record.ir,
        dr=data_out if "DR.E" in enabled else record.dr,
        acc=result if "Acc.E" in enabled else record.acc,
        sr=flags if "SR.E" in enabled else record.sr,
        stage=(record.stage + 1) % 3,
    )
    assert None not in after and None not in cells
    return after


def obey(image, cells, record):
    """One instruction by the instruction rules, not by the clock table. Besides
    what the rules name, IR is left with the word and DR with M's operand.
    """
    word = entry(image, record.pc)
    kind, fields = decode(word)
    after = record._replace(pc=stepped(record.pc), ir=word)
    if kind == "GOTO":
        (target,) = fields
        after = after._replace(pc=target)
    if kind == "J":
        flag, target = fields
        if bit(record.sr, flag) == 1:
            after = after._replace(pc=target)
    if kind == "M":
        d, mode, cell = fields
        operand = cells[cell]
        _, result, flags = unit(mode, record.acc, operand, record.sr)
        after = after._replace(dr=operand, sr=flags)
        if d == 1:
            after = after._replace(acc=result)
        else:
            cells[cell] = result
    if kind == "I":
        mode, immediate = fields
        _, result, flags = unit(mode, record.acc, immediate, record.sr)
        after = after._replace(acc=result, sr=flags)
    return after


def refusal_of(image, cells, record):
    if len(image) > 256:
        return 11
    if any(word > 4095 for word in image):
        return 10
    if len(cells) != 16:
        return 12
    if record.sr > 15 or record.ir > 4095:
        return 13
    return 0


# Each call answers the refusal number and the record, and works on the cells.


def clock(image, cells, record):
    refusal = refusal_of(image, cells, record)
    if refusal != 0:
        return refusal, record
    return 0, edge(image, cells, record)


def instruction(image, cells, record):
    refusal = refusal_of(image, cells, record)
    if refusal != 0:
        return refusal, record
    if record.stage != FETCH:
        return 33, record
    return 0, obey(image, cells, record)


def run(image, cells, record, clocks):
    refusal = refusal_of(image, cells, record)
    if refusal != 0:
        return refusal, record
    for _ in range(clocks):
        record = edge(image, cells, record)
    return 0, record


def named_calls(clocks):
    """The three calls by name; a run is asked for this number of clocks."""
    return {
        "clock": clock,
        "instruction": instruction,
        "run": lambda image, cells, record: run(image, cells, record, clocks),
    }


# ---------------------------------------------------------------- numbers to meet

# Document 01's starred rows: mode, a, b, flags before, result, flags after.
UNIT_NUMBERS = (
    (0x0, 0x80, 0x80, 0x0, 0x00, 0xD),
    (0x1, 0x02, 0x03, 0x0, 0xFF, 0x6),
    (0x7, 0xFF, 0xFC, 0x0, 0xFD, 0x6),
    (0x8, 0x00, 0x7F, 0x0, 0x80, 0x3),
    (0x9, 0x00, 0x00, 0x0, 0xFF, 0x6),
    (0xA, 0x01, 0x80, 0x5, 0x01, 0x5),
    (0xC, 0x09, 0x81, 0x3, 0x02, 0x7),
    (0xD, 0x03, 0x04, 0x0, 0x00, 0xC),
    (0xE, 0x01, 0x81, 0x0, 0xC0, 0x6),
    (0xE, 0x00, 0x80, 0xD, 0x80, 0xF),
    (0xF, 0x00, 0x80, 0x0, 0x80, 0x7),
    (0xF, 0x00, 0x00, 0x0, 0x00, 0x8),
)

# Its starred words: word, flag, target.
JUMP_NUMBERS = (
    (0x704, "Z", 4),
    (0x404, "O", 4),
)


# Document 003's four test programs: the binary column of section 4, and what the
# meaning column says at the end: Acc, PC and the cells it names. Its numbers are
# signed; a cell it does not name stays 0.
Test = namedtuple("Test", "words acc pc cells")

TESTS = {
    1: Test(
        words=(
            "0000_0000_0000",  # (no operation)
            "1011_0000_0001",  # Acc = 1
            "0010_0010_0000",  # DMem[0] = Acc = 1
            "1011_0000_0000",  # Acc = 0
            "0011_0011_0000",  # Acc = DMem[0] = 1
            "0001_0000_0101",  # (jump to itself), GOTO 5
        ),
        acc=1, pc=5, cells={0: 1},
    ),
    2: Test(
        words=(
            "0000_0000_0000",  # (no operation)
            "1011_0000_0001",  # Acc = 1
            "0010_0010_0000",  # DMem[0] = Acc = 1
            "0011_0000_0000",  # Acc = Acc + DMem[0] = 1 + 1 = 2
            "0010_0000_0000",  # DMem[0] = Acc + DMem[0] = 1 + 2 = 3
            "0011_0001_0000",  # Acc = Acc - DMem[0] = 2 - 3 = -1
            "0010_0001_0000",  # DMem[0] = Acc - DMem[0] = (-1) - 3 = -4
            "0011_0111_0000",  # Acc = DMem[0] - Acc = (-4) - (-1) = -3
            "0010_0111_0000",  # DMem[0] = DMem[0] - Acc = (-4) - (-3) = -1
            "0001_0000_1001",  # (jump to itself), GOTO 9
        ),
        acc=-3, pc=9, cells={0: -1},
    ),
    3: Test(
        words=(
            "0000_0000_0000",  # (no operation)
            "1011_0000_0101",  # Acc = 0x05
            "0010_0010_0000",  # DMem[0] = Acc = 0x05
            "0010_0010_0001",  # DMem[1] = Acc = 0x05
            "0010_0010_0010",  # DMem[2] = Acc = 0x05
            "1011_0000_0011",  # Acc = 0x03
            "0010_0100_0000",  # DMem[0] = Acc AND DMem[0] = 0x03 AND 0x05 = 0x01
            "0010_0101_0001",  # DMem[1] = Acc OR DMem[1] = 0x03 OR 0x05 = 0x07
            "0010_0110_0010",  # DMem[2] = Acc XOR DMem[2] = 0x03 XOR 0x05 = 0x06
            "0001_0000_1001",  # (jump to itself), GOTO 9
        ),
        acc=0x03, pc=9, cells={0: 0x01, 1: 0x07, 2: 0x06},
    ),
    4: Test(
        words=(
            "0000_0000_0000",  # (no operation)
            "1011_0000_0001",  # Acc = 1
            "1010_0000_0000",  # (reserved instruction, do nothing)
            "1000_0000_0111",  # Acc = Acc + 7 = 1 + 7 = 8
            "1001_0000_0110",  # Acc = Acc - 6 = 8 - 6 = 2
            "1111_0000_0111",  # Acc = 7 - Acc = 7 - 2 = 5
            "1100_0000_0011",  # Acc = Acc AND 0x03 = 0x05 AND 0x03 = 0x01
            "1101_0000_0101",  # Acc = Acc OR 0x05 = 0x01 OR 0x05 = 0x05
            "1110_0000_0011",  # Acc = Acc XOR 0x03 = 0x05 XOR 0x03 = 0x06
            "0001_0000_1001",  # (jump to itself), GOTO 9
        ),
        acc=0x06, pc=9, cells={},
    ),
}

# The image of document 01's example, which ends after 27 clocks with Acc 0,
# flags 8, PC 4.
EXAMPLE = (0xB03, 0x901, 0x704, 0x101)


def image_of(test):
    return [int(word, 2) for word in test.words]


def end_of(test):
    """Acc, PC and the cells as bytes."""
    return test.acc % 256, test.pc, [test.cells.get(cell, 0) % 256 for cell in range(16)]


def hold_to_the_programs():
    for number, test in TESTS.items():
        cells = [0] * 16
        refusal, after = run(image_of(test), cells, FRESH, 3 * len(test.words))
        assert refusal == 0, number
        assert (after.acc, after.pc, cells) == end_of(test), number
    refusal, after = run(EXAMPLE, [0] * 16, FRESH, 27)
    assert (refusal, after.acc, after.sr, after.pc) == (0, 0, 8, 4)


def hold_three_clocks_to_one_instruction():
    """On pseudo-random states with FETCH next, images of every length among them."""
    chance = random.Random(320)
    for length in range(257):
        image = [chance.randrange(4096) for _ in range(length)]
        for _ in range(20):
            cells = [chance.randrange(256) for _ in range(16)]
            clocked_cells = list(cells)
            record = Record(
                pc=chance.randrange(256), ir=chance.randrange(4096), dr=chance.randrange(256),
                acc=chance.randrange(256), sr=chance.randrange(16), stage=FETCH)
            obeyed = instruction(image, cells, record)
            for _ in range(3):
                refusal, record = clock(image, clocked_cells, record)
                assert refusal == 0
            assert obeyed == (0, record), (image, record)
            assert cells == clocked_cells, (image, record)


def hold_to_the_document():
    for mode, a, b, before, result, after in UNIT_NUMBERS:
        assert unit(mode, a, b, before) == (0, result, after), (mode, a, b, before)
    for word, flag, target in JUMP_NUMBERS:
        fields = (JUMP_FLAGS.index(flag), target)
        assert decode(word) == ("J", fields), word
        assert encode("J", *fields) == (0, word), word


# ---------------------------------------------------------------- printing

# A kind's place is its number in the digest of the decoder.
KINDS = ("S", "GOTO", "M", "J", "I", "refused")


def print_numbers():
    for mode, a, b, before, _, _ in UNIT_NUMBERS:
        answer = unit(mode, a, b, before)
        print(f"mode {mode:x}: {a:02x}, {b:02x}, {before:x}"
              f" -> {answer.result:02x}, {answer.flags:x}")
    for word, _, _ in JUMP_NUMBERS:
        _, (flag, target) = decode(word)
        print(f"{word:03x} is jump if {flag} to {target:02x}")


def print_unit_refusals():
    for mode, status in ((0x10, 0x00), (0x00, 0x10), (0x10, 0x10), (0xFF, 0xFF), (0x0F, 0x0F)):
        answer = unit(mode, 0x12, 0x34, status)
        print(f"unit {mode:02x}, {status:02x}"
              f" -> {answer.refusal}, {answer.result:02x}, {answer.flags:x}")


def print_decoder_refusals():
    for word in (0x0FFF, 0x1000, 0xFFFF):
        kind, fields = decode(word)
        refusal = fields[0] if kind == "refused" else 0
        print(f"decode {word:04x} -> {refusal}")


def print_encoder_refusals():
    for kind, *fields in (
        ("M", 1, 15, 15), ("M", 2, 0, 0), ("M", 0, 16, 0), ("M", 0, 0, 16),
        ("J", 3, 255), ("J", 4, 0),
        ("I", 7, 255), ("I", 8, 0),
    ):
        refusal, word = encode(kind, *fields)
        print("encode", kind, *fields, f"-> {refusal}, {word:03x}")


def digest(numbers):
    folded = 0
    for number in numbers:
        folded = (folded * 16777619 + number + 1) % 4294967291
    return f"{folded:08x}"


def unit_numbers(mode):
    for a in range(256):
        for b in range(256):
            for status in (0, 15):
                refusal, result, flags = unit(mode, a, b, status)
                yield refusal * 65536 + result * 256 + flags


def decoder_numbers():
    for word in range(65536):
        kind, fields = decode(word)
        yield KINDS.index(kind)
        yield from fields
        yield from [0] * (3 - len(fields))


def instructions():
    for k in range(256):
        yield "S", k
    for target in range(256):
        yield "GOTO", target
    for destination in range(4):
        for mode in range(32):
            for cell in range(32):
                yield "M", destination, mode, cell
    for flag in range(256):
        for target in (0, 255):
            yield "J", flag, target
    for mode in range(256):
        for immediate in (0, 255):
            yield "I", mode, immediate


def encoder_numbers():
    for kind, *fields in instructions():
        refusal, word = encode(kind, *fields)
        yield refusal * 65536 + word


def print_tests():
    for number, test in TESTS.items():
        acc, pc, cells = end_of(test)
        print(f"test {number}: acc {acc:02x}, pc {pc:02x}, cells",
              *(f"{cell:02x}" for cell in cells))


def trace_line(number, record):
    row = control(record.ir, record.stage, record.sr)
    return (f"{number:02d} {STAGES[record.stage]} {record.pc:02x} {record.ir:03x}"
            f" {record.dr:02x} {record.acc:02x} {record.sr:x}"
            f" {row.enables} {row.mode:x} {row.mux1} {row.mux2}")


def print_trace(name, image, clocks):
    print(f"trace of {name}: clock stage pc ir dr acc sr enables mode mux1 mux2")
    cells = [0] * 16
    record = FRESH
    print(trace_line(0, record))
    for number in range(1, clocks + 1):
        _, record = clock(image, cells, record)
        print(trace_line(number, record))


def print_rows():
    for word, stage, status in (
        (0x0FFF, 2, 0x0F), (0x1000, 2, 0x0F), (0x0FFF, 2, 0x10), (0x1000, 0, 0x10),
        (0x0704, 2, 0x08), (0x0704, 2, 0x07),
        (0x0210, 2, 0x00), (0x0310, 2, 0x00), (0x0210, 1, 0x00),
    ):
        row = control(word, stage, status)
        print(f"row {word:04x}, {stage}, {status:02x}"
              f" -> {row.refusal}, {row.enables}, {row.mode:x}, {row.mux1}, {row.mux2}")


def verdict(call, image, cells, record):
    cells_before = list(cells)
    refusal, after = call(image, cells, record)
    if refusal == 0:
        return "0"
    assert (after, cells) == (record, cells_before)
    return f"{refusal} kept"


def print_call_refusals():
    for words, last, count, status, ir, stage in (
        (256, 0x0FFF, 16, 0x0F, 0x0FFF, 0), (257, 0x0FFF, 16, 0x0F, 0x0FFF, 0),
        (257, 0x1000, 15, 0x10, 0x1000, 1), (256, 0x1000, 15, 0x10, 0x1000, 1),
        (256, 0x0FFF, 15, 0x10, 0x1000, 1), (256, 0x0FFF, 17, 0x00, 0x0000, 0),
        (256, 0x0FFF, 16, 0x10, 0x0000, 1), (256, 0x0FFF, 16, 0x0F, 0x1000, 2),
        (256, 0x0FFF, 16, 0x0F, 0x0FFF, 1), (256, 0x0FFF, 16, 0x0F, 0x0FFF, 2),
        (0, 0x0000, 16, 0x00, 0x0000, 0), (1, 0x1000, 16, 0x00, 0x0000, 0),
    ):
        image = [0x000] * (words - 1) + [last] if words > 0 else []
        record = Record(pc=0x07, ir=ir, dr=0x21, acc=0x43, sr=status, stage=stage)
        verdicts = (f"{name} {verdict(call, image, [0x5A] * count, record)}"
                    for name, call in named_calls(4).items())
        print(f"{words} words, last {last:04x}, {count} cells, sr {status:02x},"
              f" ir {ir:04x}, stage {stage}:", ", ".join(verdicts))


def row_numbers():
    for status in range(17):
        for stage in range(3):
            for word in range(4097):
                row = control(word, stage, status)
                yield from (row.refusal, int(row.enables, 2), row.mode, row.mux1, row.mux2)


def mixed(n, salt):
    a = (n * 40503 + salt * 9973 + 1) % 65521
    return (a * a + salt) % 65521


def stage_number(name, number):
    """Each stage alike, but for the instruction FETCH in fourteen of sixteen."""
    return max(number % 16 - 13, 0) if name == "instruction" else number % 3


def call_numbers(name):
    image = [mixed(i, 99) % 4096 for i in range(250)]
    cells = [mixed(i, 7) % 256 for i in range(16)]
    for n in range(10000):
        record = Record(
            pc=mixed(n, 1) % 256, ir=mixed(n, 2) % 4160, dr=mixed(n, 3) % 256,
            acc=mixed(n, 4) % 256, sr=mixed(n, 5) % 17, stage=stage_number(name, mixed(n, 6)))
        call = named_calls(mixed(n, 8) % 50)[name]
        refusal, after = call(image, cells, record)
        yield from (refusal, after.pc, after.ir, after.dr, after.acc, after.sr, after.stage)
        yield from cells


def print_clock_digests():
    print(f"digest of row: {digest(row_numbers())}")
    for name in ("clock", "instruction", "run"):
        print(f"digest of {name}: {digest(call_numbers(name))}")


def print_digests():
    for mode in range(16):
        print(f"digest of mode {mode:x}: {digest(unit_numbers(mode))}")
    print(f"digest of decode: {digest(decoder_numbers())}")
    print(f"digest of encode: {digest(encoder_numbers())}")


def hold():
    hold_to_the_document()
    hold_to_the_programs()
    hold_three_clocks_to_one_instruction()


def print_vectors():
    print_numbers()
    print_unit_refusals()
    print_decoder_refusals()
    print_encoder_refusals()
    print_digests()
    print_tests()
    print_trace("test 2", image_of(TESTS[2]), 30)
    print_trace("the example", EXAMPLE, 27)
    print_trace("the last entry", (0x1FF,), 6)
    print_rows()
    print_call_refusals()
    print_clock_digests()
