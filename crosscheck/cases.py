"""Makes random cases, with the results that the rules want: cases.py KIND N SEED prints N of a kind.

KIND is fields, blocks, stores, frames, sender or host, which print one case to a line (README.md has the format), or script, which
prints script number N for the program board, with the answer expected behind each line.

What is drawn depends on the start number, on the kind and on how many of that kind were drawn before.
"""

import math
import random
import sys

import guyekpan as g

TOP = 2**32 - 1


def generator(seed, kind, number):
    return random.Random(f"{seed} {kind} {number}")


def chance(rng, one_in):
    return rng.randrange(one_in) == 0


# Words, runs and shapes


def some_words(rng, length):
    """A run of any words, sometimes of few bits or of all."""
    way = rng.randrange(8)
    if way == 0:
        return [0] * length
    if way == 1:
        return [TOP] * length
    if way == 2:
        return [1 << rng.randrange(32) if chance(rng, 6) else 0 for _ in range(length)]
    return [rng.getrandbits(32) for _ in range(length)]


def some_length(rng, length, one_in=12):
    """The length, or sometimes a wrong one."""
    if not chance(rng, one_in):
        return length
    return rng.choice([0, 1, max(length - 1, 0), length + 1, 2 * length, rng.randrange(length + 9)])


def run_of(rng, length):
    return some_words(rng, some_length(rng, length))


def some_arithmetic(rng):
    return rng.choice(sorted(g.ARITHMETICS))


def some_shape(rng, field, words, blocks=64):
    """A shape that the field accepts, with at most so many words in all its blocks, or the least there is."""
    reach = field.order if chance(rng, 3) else min(field.order, 12)
    n = rng.randint(2, reach)
    k = rng.randint(max(1, n - 32), n - 1)
    w = rng.choice([1, 1, 2, 3, 16, rng.randint(1, 16)])
    if chance(rng, 3):
        # Any width, at the cost of positions: else a wide row seldom has room.
        w = rng.randint(1, 16)
        n = max(2, min(n, words // (field.width * w)))
        k = rng.randint(max(1, n - 32), n - 1)
    while n * field.width * w > words and w > 1:
        w -= 1
    while n * field.width * w > words and n > k + 1:
        n -= 1
    most = min(blocks, max(1, words // (n * field.width * w)))
    B = rng.choice([1, min(2, most), most, rng.randint(1, most)])
    return g.make_shape(field, field.width, n, k, B, w)


def budget(rng):
    """How many words a case may take: mostly few, so that there can be many cases."""
    return rng.choice([60, 200, 200, 600, 600, 2000]) if not chance(rng, 40) else 8192


EDGES = {
    "m": [0, 1, 2, 3, 4, 5, 7, 8, 9, 10, 11, 15, 2**32 + 8],
    "n": [0, 1, 2, 15, 16, 17, 31, 32, 33, 34, 255, 256, 257, 1023, 4095, 2**64 - 1],
    "k": [0, 1, 2, 14, 15, 16, 222, 223, 224, 254, 255, 256, 4095, 2**64 - 1],
    "B": [0, 1, 2, 63, 64, 65, 4095, 2**32 + 1],
    "w": [0, 1, 2, 15, 16, 17, 255, 2**32 + 1],
}


def some_numbers(rng, shape):
    """The five numbers of a shape with one or two of them changed to a number at an edge."""
    numbers = dict(shape._asdict())
    for name in rng.sample(sorted(EDGES), rng.choice([0, 1, 1, 1, 2])):
        numbers[name] = rng.choice(EDGES[name])
    way = rng.randrange(6)
    if way == 0:
        numbers["n"] = min(numbers["k"] + rng.choice([0, 1, 32, 33]), 2**64 - 1)
    elif way == 1:
        numbers["n"] = 2 ** shape.m - 1 + rng.choice([0, 1, 2])
        numbers["k"] = numbers["n"] - rng.choice([1, 1, 32, 33])
    return tuple(max(number, 0) for number in numbers.values())


def at_most(numbers, limits):
    return tuple(min(number, limit) for number, limit in zip(numbers, limits))


def some_positions(rng, shape, most):
    """At most so many positions of a block, ascending; often as many as there can be."""
    most = min(most, shape.n)
    count = rng.choice([0, 1, most, rng.randint(0, most)])
    return sorted(rng.sample(range(shape.n), min(count, shape.n)))


def some_list(rng, shape):
    """Positions for a loss list: good ones, too many, not ascending, or outside."""
    positions = some_positions(rng, shape, shape.r if chance(rng, 2) else shape.r + 4)
    way = rng.randrange(8)
    if way == 0 and positions:
        positions.insert(rng.randrange(len(positions)), rng.choice(positions))
    elif way == 1:
        rng.shuffle(positions)
    elif way == 2:
        positions.append(shape.n + rng.choice([0, 0, 1, 40000]))
    return positions


def codeword(rng, field, shape):
    """A block that is a codeword."""
    source = some_words(rng, shape.k * shape.packet)
    parity = [0] * (shape.r * shape.packet)
    g.encode(field, shape, source, parity)
    return parity + source


def damage(rng, run):
    """Changes one bit or one word of a run."""
    if run:
        change = 1 << rng.randrange(32) if chance(rng, 2) else rng.randint(1, TOP)
        run[rng.randrange(len(run))] ^= change


# Lines: a name, the arguments, "=", the result


def text(item):
    """An argument or a value as the lines have it; a list is a run, a tuple a list of positions."""
    if isinstance(item, list):
        return " ".join(["[", *(f"{word:08x}" for word in item), "]"])
    if isinstance(item, tuple):
        return " ".join(["{", *map(str, item), "}"])
    if isinstance(item, (bytes, bytearray)):
        return "x" + item.hex()
    return str(item)


def line(name, arguments, result, runs=()):
    return " ".join([name, *map(text, arguments), "=", *map(text, result), *map(text, runs)])


def outcome(call, *arguments):
    """What a call answers, as a list of values: done and what it gives, or refused, the number and its values."""
    try:
        value = call(*arguments)
    except g.Refused as refused:
        return ["refused", refused.number, *refused.values]
    return ["done"] if value is None else ["done", value]


def lists(runs):
    """Copies of runs, to print them as they were."""
    return [list(run) for run in runs]


class Setting:
    """An arithmetic, a shape, and the arithmetic that the shape was made for, which is sometimes another."""

    def __init__(self, rng, blocks=64):
        self.name = some_arithmetic(rng)
        self.made_for = self.name if not chance(rng, 15) else some_arithmetic(rng)
        self.field = g.ARITHMETICS[self.name]
        self.shape_field = g.ARITHMETICS[self.made_for]
        self.shape = some_shape(rng, self.shape_field, budget(rng), blocks)

    def words(self):
        return [self.name, self.made_for, *self.shape]


# Kind 1: fields


def field_cases():
    """All powers, all inverses and the width of each arithmetic."""
    for name, field in g.ARITHMETICS.items():
        yield line("width", [name], [field.width])
        for i in range(field.order):
            power = field.power(i)
            yield line("product", [name, f"{2:08x}", f"{power:08x}"], [f"{field.power(i + 1):08x}"])
        for a in range(field.order + 1):
            yield line("inverse", [name, f"{a:08x}"], [f"{field.inverse(a):08x}"])


def field_case(rng, _):
    """A product or an inverse of any 32-bit numbers."""
    name = some_arithmetic(rng)
    field = g.ARITHMETICS[name]
    a, b = rng.getrandbits(32), rng.getrandbits(rng.choice([1, 4, 8, 32]))
    if chance(rng, 4):
        return line("inverse", [name, f"{a:08x}"], [f"{field.inverse(a & field.order):08x}"])
    return line("product", [name, f"{a:08x}", f"{b:08x}"], [f"{field.product(a, b):08x}"])


# Kind 2: shapes, loss lists and block calls


def shape_case(rng):
    name = some_arithmetic(rng)
    field = g.ARITHMETICS[name]
    numbers = some_numbers(rng, some_shape(rng, field, 600))
    result = outcome(g.make_shape, field, *numbers)
    return line("shape", [name, *numbers], result[:1] if result[0] == "done" else result)


def losses_case(rng):
    name = some_arithmetic(rng)
    shape = some_shape(rng, g.ARITHMETICS[name], 600)
    positions = some_list(rng, shape)
    return line("losses", [name, *shape, tuple(positions)], outcome(g.check_losses, shape, positions))


def encode_case(rng):
    s = Setting(rng)
    runs = [run_of(rng, s.shape.k * s.shape.packet), run_of(rng, s.shape.r * s.shape.packet)]
    before = lists(runs)
    result = outcome(g.encode, s.field, s.shape, *runs)
    return line("encode", s.words() + before, result, runs)


def block_runs(rng, s, block):
    """A block run and a work run, of which sometimes one has a wrong length."""
    length = some_length(rng, len(block))
    block = (block + some_words(rng, length))[:length]
    return [block, run_of(rng, (s.shape.r + 1) * s.shape.packet)]


def check_case(rng):
    s = Setting(rng)
    block = codeword(rng, s.shape_field, s.shape)
    if chance(rng, 2):
        damage(rng, block)
    runs = block_runs(rng, s, block)
    before = lists(runs)
    result = outcome(g.check, s.field, s.shape, *runs)
    if result[0] == "done":
        result = ["yes" if result[1] else "no"]
    return line("check", s.words() + before, result, runs)


def loss_list(rng, s):
    """The arithmetic, the shape and the positions of a loss list; the shape is mostly that of the call."""
    name, shape = s.made_for, s.shape
    if chance(rng, 6):
        name = some_arithmetic(rng)
        shape = some_shape(rng, g.ARITHMETICS[name], 600)
    return [name, *shape], some_positions(rng, shape, shape.r)


def spoil(rng, shape, block, positions):
    """Writes anything at positions of a block."""
    for position in positions:
        if position < shape.n:
            start = position * shape.packet
            block[start : start + shape.packet] = some_words(rng, shape.packet)


def repair_case(rng):
    s = Setting(rng)
    block = codeword(rng, s.shape_field, s.shape)
    made, losses = loss_list(rng, s)
    spoil(rng, s.shape, block, losses)
    if chance(rng, 3):
        damage(rng, block)
    runs = block_runs(rng, s, block)
    before = lists(runs)
    result = outcome(g.repair, s.field, s.shape, *runs, losses)
    return line("repair", s.words() + made + [tuple(losses)] + before, result, runs)


def absorb_case(rng):
    s = Setting(rng)
    position = rng.randrange(s.shape.n) if not chance(rng, 8) else s.shape.n + rng.choice([0, 1, 300])
    runs = [run_of(rng, s.shape.r * s.shape.packet), run_of(rng, s.shape.packet)]
    before = lists(runs)
    result = outcome(g.absorb, s.field, s.shape, position, *runs)
    return line("absorb", s.words() + [position] + before, result, runs)


def sums_of_losses(rng, s, losses):
    """A run of sums that packets at the lost positions give."""
    packets = {p: g.packet_elements(s.shape, some_words(rng, s.shape.packet)) for p in losses}
    return g.join(s.shape, g.sums_of(s.shape_field, s.shape, packets))


def rebuild_case(rng):
    s = Setting(rng)
    made, losses = loss_list(rng, s)
    sums = sums_of_losses(rng, s, losses)
    if chance(rng, 3):
        damage(rng, sums)
    length = some_length(rng, len(sums))
    runs = [(sums + some_words(rng, length))[:length], run_of(rng, s.shape.packet)]
    before = lists(runs)
    result = outcome(g.rebuild, s.field, s.shape, *runs, losses)
    return line("rebuild", s.words() + made + [tuple(losses)] + before, result, runs)


BLOCK_CASES = [
    shape_case, losses_case, encode_case, check_case, repair_case, repair_case, repair_case, absorb_case, rebuild_case,
]


def block_case(rng, number):
    return BLOCK_CASES[number % len(BLOCK_CASES)](rng)


# Stores: a line has several calls of one store, divided by ";"


class StoreCase:
    """The calls of one store and their answers."""

    def __init__(self, rng):
        self.rng = rng
        self.kind = rng.choice(sorted(g.STORES))
        self.before = some_words(rng, rng.choice([0, 1, 30, 30, 60, 60, 200, 200, 600]))
        self.store = g.STORES[self.kind](len(self.before))
        self.below = getattr(self.store, "below", self.store)
        self.steps = []
        self.results = []

    def add(self, name, call, numbers, words=None, yes_no=False):
        """Makes a call, and keeps it and what it answers; the words are a run, which is printed before and after."""
        runs = [] if words is None else [words]
        self.steps.append(" ".join([name, *map(text, numbers), *map(text, runs)]))
        result = outcome(call, *numbers, *runs)
        if yes_no and result[0] == "done":
            result = ["yes" if result[1] else "no"]
        self.results.append(" ".join(map(text, result + runs)))

    def some_format(self):
        """Three numbers that mostly fit, often with few words left over."""
        rng = self.rng
        capacity = self.below.capacity
        size = rng.choice([1, 2, 4, 8, 8]) if not chance(rng, 6) else rng.choice([255, 256, 257])
        rows = rng.choice([1, 1, 2, 3, rng.randint(1, 30)])
        columns = max(1, capacity // (rows * (size + 1)) + rng.choice([0, 0, 0, 0, -1, 1]))
        numbers = [rows, columns, size]
        if chance(rng, 6):
            numbers[rng.randrange(3)] = rng.choice([0, 1023, 1024, 2**32, 2**63])
        return numbers if chance(rng, 2) else [numbers[1], numbers[0], numbers[2]]

    def some_slot(self):
        """A slot of the grid as the caller sees it, often one of few, or a place near the grid."""
        rng = self.rng
        rows, columns = max(1, self.below.rows), max(1, self.below.columns)
        if self.below is not self.store:
            rows, columns = columns, rows
        slot = [rng.randrange(min(rows, 3)), rng.randrange(min(columns, 3))]
        if chance(rng, 3):
            slot = [rng.randrange(rows), rng.randrange(columns)]
        if chance(rng, 6):
            slot[rng.randrange(2)] = rng.choice([rows, columns, 1023, 2**32, 2**63])
        return slot

    def step(self):
        way = self.rng.randrange(14)
        if way == 0:
            self.add("format", self.store.format, self.some_format())
        elif way < 4:
            self.add("held", self.store.held, self.some_slot(), yes_no=True)
        else:
            name, call = ("put", self.store.put) if way < 9 else ("get", self.store.get)
            self.add(name, call, self.some_slot(), run_of(self.rng, self.below.size))

    def line(self):
        words = g.nor_words if "nor" in self.kind else g.memory_words
        steps = [f"store {self.kind} {text(self.before)}", *self.steps]
        results = [*self.results, text(words(self.below, self.before))]
        return " ; ".join(steps) + " = " + " ; ".join(results)


def store_case(rng, _):
    case = StoreCase(rng)
    for _ in range(rng.choice([0, 1, 1])):
        case.step()
    for _ in range(rng.choice([1, 1, 1, 2])):
        case.add("format", case.store.format, case.some_format())
        for _ in range(rng.randrange(20 if case.below.rows else 4)):
            case.step()
    return case.line()


# Frames


def good_frame(rng):
    """A frame of either kind, of any numbers that fit."""
    if chance(rng, 2):
        frame = [0, 0]
        numbers = [rng.getrandbits(width) for width in (4, 12, 12, 12, 8)]
        g.write_shape_frame(*numbers, frame)
        return frame
    payload = some_words(rng, rng.randrange(6))
    frame = [0] * (1 + len(payload))
    g.write_packet_frame(rng.getrandbits(12), rng.getrandbits(12), payload, frame)
    return frame


def some_frame(rng):
    """A frame, or words that are nearly one."""
    frame = good_frame(rng)
    way = rng.randrange(6)
    if way == 0:
        return frame[:-1]
    if way == 1:
        return frame + [0]
    if way == 2:
        frame[rng.randrange(min(2, len(frame)))] ^= 1 << rng.randrange(32)
    if way == 3:
        frame[0] ^= rng.randint(1, 15) << 28
    return frame


def read_case(rng):
    frame = some_frame(rng)
    result = outcome(g.read_frame, list(frame))
    if result[0] == "done":
        kind = "shape" if isinstance(result[1], g.ShapeFrame) else "packet"
        result = [kind, *result[1]]
    return line("read", [frame], result)


def too_wide(rng, number, width):
    return number if not chance(rng, 12) else (1 << width) + number


def write_shape_case(rng):
    widths = (4, 12, 12, 12, 8)
    numbers = [too_wide(rng, rng.getrandbits(width), width) for width in widths]
    run = run_of(rng, 2)
    before = list(run)
    return line("write-shape", [*numbers, before], outcome(g.write_shape_frame, *numbers, run), [run])


def write_packet_case(rng):
    block, position = (too_wide(rng, rng.getrandbits(12), 12) for _ in range(2))
    payload = some_words(rng, rng.randrange(6))
    run = run_of(rng, 1 + len(payload))
    before = list(run)
    result = outcome(g.write_packet_frame, block, position, payload, run)
    return line("write-packet", [block, position, payload, before], result, [run])


FRAME_CASES = [read_case, read_case, write_shape_case, write_packet_case]


def frame_case(rng, number):
    return FRAME_CASES[number % len(FRAME_CASES)](rng)


# Sender


def sender_runs(rng, s):
    """An image and a parity run."""
    return [run_of(rng, g.image_words(s.shape)), run_of(rng, g.parity_words(s.shape))]


def frame_number(rng, shape):
    last = shape.B * shape.n
    return rng.choice([0, 1, last, last + 1, rng.randint(0, last), rng.randint(0, last), last + 70000])


def prepare_case(rng):
    s = Setting(rng)
    runs = sender_runs(rng, s)
    before = lists(runs)
    result = outcome(g.prepare, s.field, s.shape, *runs)
    return line("prepare", s.words() + before, result, runs)


def numbering_case(rng):
    s = Setting(rng)
    number = frame_number(rng, s.shape)
    result = outcome(g.numbering, s.shape, number)
    if result[0] == "done":
        result = ["done", *result[1]]
    return line("numbering", [s.made_for, *s.shape, number], result)


def payload_case(rng):
    s = Setting(rng)
    runs = sender_runs(rng, s)
    number = frame_number(rng, s.shape)
    return line("payload", [s.made_for, *s.shape, number] + runs, outcome(g.payload, s.shape, number, *runs))


def sender_frame_case(rng):
    s = Setting(rng)
    number = frame_number(rng, s.shape)
    runs = sender_runs(rng, s) + [run_of(rng, 2 if number == 0 else s.shape.packet + 1)]
    before = lists(runs)
    result = outcome(g.sender_frame, s.shape, number, *runs)
    return line("frame", [s.made_for, *s.shape, number] + before, result, runs)


def broadcast_shape(rng):
    """An arithmetic and a shape of any size for it, often with just a multiple of fifty packets."""
    name = some_arithmetic(rng)
    shape = some_shape(rng, g.ARITHMETICS[name], 2**20)
    if chance(rng, 3):
        shape = shape._replace(B=50 // math.gcd(50, shape.n))
    return name, shape


def some_turn(rng, turns):
    """A turn near one of the shape's, near the last, any, or far behind all."""
    way = rng.randrange(6)
    if way == 0:
        return rng.choice([2**16, 2**32, 2**63, 2**64 - turns]) + rng.randrange(turns)
    if way == 1:
        return rng.randrange(turns)
    near = turns if way == 2 else 51 * rng.randint(0, turns // 51)
    return max(0, near + rng.choice([-2, -1, 0, 1]))


def turns_case(rng):
    name, shape = broadcast_shape(rng)
    return line("turns", [name, *shape], [g.turns(shape)])


def turn_case(rng):
    name, shape = broadcast_shape(rng)
    turn = some_turn(rng, g.turns(shape))
    return line("turn", [name, *shape, turn], outcome(g.frame_of, shape, turn))


SENDER_CASES = [prepare_case, numbering_case, payload_case, sender_frame_case, turns_case, turn_case, turn_case]


def sender_case(rng, number):
    return SENDER_CASES[number % len(SENDER_CASES)](rng)


# Kind 4: host calls

HOST_FLAWS = ["none", "none", "numbers", "size", "string", "string", "odd", "order", "outside", "many", "damage", "damage"]


def host_numbers(rng, flaw):
    """m, n, k, w for a host call, and the shape that the strings are cut for."""
    shape = some_shape(rng, g.OCTET, budget(rng), 1)
    numbers = shape
    if flaw == "numbers":
        numbers = g.Shape(*at_most(some_numbers(rng, shape), [TOP] * 5))
    elif flaw == "size":
        w = rng.randint(5, 16)
        n = 1024 // w + rng.choice([0, 1, 1])
        shape = numbers = g.Shape(8, n, n - rng.randint(1, 4), 1, w)
    return [numbers.m, numbers.n, numbers.k, numbers.w], shape


def bytes_of(words):
    string = bytearray()
    g.spell(words, string)
    return string


def host_string(rng, words, wrong):
    """The bytes of a run, or with some bytes too few or too many."""
    string = bytes_of(words)
    if wrong and chance(rng, 2):
        return string[: -rng.randint(1, 5)]
    return string + bytes(rng.choice([1, 2, 3, 4]) if wrong else 0)


def host_encode_case(rng, numbers, shape, flaw):
    wrong = rng.choice([(True, False), (False, True), (True, True)]) if flaw == "string" else (False, False)
    lengths = (shape.k * shape.packet, shape.r * shape.packet)
    strings = [host_string(rng, some_words(rng, n), bad) for n, bad in zip(lengths, wrong)]
    before = [bytes(string) for string in strings]
    return line("host-encode", numbers + before, [g.host_encode(*numbers, *strings)], strings)


def host_block(rng, shape, flaw):
    """A block and a work string."""
    wrong = rng.choice([(True, False), (False, True), (True, True)]) if flaw == "string" else (False, False)
    block = codeword(rng, g.OCTET, shape) if shape.k > 0 else []
    if flaw == "damage":
        damage(rng, block)
    work = some_words(rng, (shape.r + 1) * shape.packet)
    return host_string(rng, block, wrong[0]), host_string(rng, work, wrong[1])


def host_check_case(rng, numbers, shape, flaw):
    strings = host_block(rng, shape, flaw)
    before = [bytes(string) for string in strings]
    return line("host-check", numbers + before, [g.host_check(*numbers, *strings)], strings)


def host_losses(rng, shape, flaw):
    """The bytes of a loss list."""
    positions = some_positions(rng, shape, shape.r)
    if flaw == "many":
        positions = sorted(rng.sample(range(shape.n), min(shape.n, shape.r + rng.randint(1, 9))))
    if flaw == "outside":
        positions.append(rng.choice([shape.n, shape.n + 1, 256, 65535]))
    if flaw == "order":
        positions += positions[:1] or [1, 0]
    string = bytearray(b"".join(position.to_bytes(2, "big") for position in positions))
    return string + bytes(1 if flaw == "odd" else 0)


def host_repair_case(rng, numbers, shape, flaw):
    block, work = host_block(rng, shape, flaw)
    losses = host_losses(rng, shape, flaw)
    before = [bytes(block), bytes(losses), bytes(work)]
    answer = g.host_repair(*numbers, block, losses, work)
    return line("host-repair", numbers + before, [answer], [block, losses, work])


HOST_CASES = [host_encode_case, host_check_case, host_repair_case, host_repair_case]


def host_case(rng, number):
    """Each call meets each flaw in turn."""
    make = HOST_CASES[number % len(HOST_CASES)]
    flaw = HOST_FLAWS[number // len(HOST_CASES) % len(HOST_FLAWS)]
    return make(rng, *host_numbers(rng, flaw), flaw)


# Kind 3: scripts for the program board


class Script:
    """Lines for board, and the answer expected to each line that has one."""

    def __init__(self, rng):
        self.rng = rng
        name = some_arithmetic(rng)
        self.field = g.ARITHMETICS[name]
        self.plans = [some_shape(rng, self.field, budget(rng)) for _ in range(rng.choice([1, 1, 1, 2, 3]))]
        kind = rng.choice(sorted(g.STORES))
        words = self.some_capacity("nor" in kind)
        self.receiver = g.Receiver(self.field, g.STORES[kind](words))
        self.lines = [(f"arithmetic {name}", None), (f"store {kind} {words}", None)]

    def some_capacity(self, lock):
        """A number of words for the store: the most that a plan needs, or near it, or few, or many."""
        needs = [s.B * s.n * (s.packet + 1) + lock for s in self.plans]
        way = self.rng.randrange(12)
        if way == 0:
            return max(needs) - 1
        if way == 1:
            return self.rng.choice([0, 1, 2, min(needs), min(needs) - 1])
        if way == 2:
            return max(needs) + self.rng.randrange(2000)
        return max(needs)

    def add(self, line, call):
        """Adds a line and what the receiver answers to it."""
        try:
            answer = call()
        except g.Refused as refused:
            answer = " ".join(map(str, ["refused", refused.number, *refused.values]))
        self.lines.append((line, answer))

    def remark(self):
        """Adds a line that board skips."""
        self.lines.append((self.rng.choice(["", "#", "# take 30000000", "#fetch 0 0 4"]), None))

    def take(self, frame):
        self.add(" ".join(["take", *(f"{word:08x}" for word in frame)]), lambda: self.receiver.take(list(frame)))

    def take_shape(self, numbers):
        frame = [0, 0]
        g.write_shape_frame(*numbers, frame)
        self.take(frame)

    def take_packet(self, block, position, payload):
        frame = [0] * (len(payload) + 1)
        g.write_packet_frame(block, position, payload, frame)
        self.take(frame)

    def repair(self, block, length):
        self.add(f"repair {block} {length}", lambda: f"whole {self.receiver.repair(block, [0] * length)}")

    def fetch(self, block, position, length):
        def call():
            run = [0] * length
            self.receiver.fetch(block, position, run)
            return " ".join(["packet", *(f"{word:08x}" for word in run)])

        self.add(f"fetch {block} {position} {length}", call)

    def count(self, block):
        self.add(f"count {block}", lambda: f"held {self.receiver.count(block)}")


def scripted_blocks(rng, field, shape):
    """The packets that are sent of each block: of a codeword, or sometimes of one with damage."""
    blocks = []
    for _ in range(shape.B):
        run = codeword(rng, field, shape)
        if chance(rng, 5):
            damage(rng, run)
        blocks.append([run[p * shape.packet : (p + 1) * shape.packet] for p in range(shape.n)])
    return blocks


def arrivals(rng, shape):
    """Which packets arrive, as pairs of a block and a position, in any order, some twice."""
    pairs = []
    for block in range(shape.B):
        arriving = rng.choice([shape.n, shape.k, shape.k, shape.k - 1, rng.randint(shape.k, shape.n), rng.randint(0, shape.n)])
        pairs += [(block, position) for position in rng.sample(range(shape.n), arriving)]
    pairs += rng.sample(pairs, min(len(pairs), rng.randrange(4)))
    if not chance(rng, 6):
        rng.shuffle(pairs)
    return pairs


def some_block(rng, shape):
    return rng.randrange(shape.B) if not chance(rng, 9) else shape.B + rng.choice([0, 1, 5000, 2**32, 2**40])


def some_position(rng, shape):
    return rng.randrange(shape.n) if not chance(rng, 9) else shape.n + rng.choice([0, 1, 5000, 2**32, 2**40])


def disturb(script, shape, blocks):
    """Adds a call that is not the next packet."""
    rng = script.rng
    block, position = some_block(rng, shape), some_position(rng, shape)
    way = rng.randrange(10)
    if way == 0:
        script.take(some_frame(rng))
    elif way == 1:
        script.take_packet(block % 4096, position % 4096, run_of(rng, shape.packet))
    elif way == 2:
        payload = list(blocks[block % shape.B][position % shape.n])
        damage(rng, payload)
        script.take_packet(block % shape.B, position % shape.n, payload)
    elif way == 3:
        payload = blocks[block % shape.B][position % shape.n]
        script.take_packet(block % shape.B, position % shape.n, payload[: some_length(rng, len(payload), 2)])
    elif way == 4:
        script.repair(block, some_length(rng, (shape.r + 1) * shape.packet, 6))
    elif way in (5, 6):
        script.fetch(block, position, some_length(rng, shape.packet, 6))
    elif way == 7:
        script.count(block)
    elif way == 8:
        same_shape(script)
    else:
        script.remark()


def bad_shape(script, shape):
    """Adds a shape frame that is mostly refused; if it is not, the packets that follow meet another shape."""
    script.take_shape(at_most(some_numbers(script.rng, shape), (15, 4095, 4095, 4095, 255)))


def nearly(rng, shape):
    """A frame that is nearly that of the shape: one number is off by one, or one bit is another."""
    numbers = list(shape)
    frame = [0, 0]
    if chance(rng, 3):
        g.write_shape_frame(*numbers, frame)
        frame[rng.randrange(2)] ^= 1 << rng.randrange(32)
    else:
        numbers[rng.randrange(5)] += rng.choice([-1, 1])
        g.write_shape_frame(*numbers, frame)
    return frame


def same_shape(script):
    """Adds the frame of the present shape again, if there is one."""
    if script.receiver.shape is not None:
        script.take_shape(script.receiver.shape)


def near_shape(script):
    """Adds a frame that is nearly that of the present shape, if there is one, and mostly this shape's own behind it."""
    rng, shape = script.rng, script.receiver.shape
    if shape is None:
        return
    frame = nearly(rng, shape)
    # The second time it is known only if it was not refused the first time.
    for _ in range(rng.choice([1, 1, 2])):
        script.take(frame)
    if not chance(rng, 4):
        script.take_shape(shape)


def close(script, shape):
    """Adds a repair of each block, and then asks for all that is held."""
    rng = script.rng
    for block in rng.sample(range(shape.B), shape.B):
        script.count(block)
        script.repair(block, (shape.r + 1) * shape.packet)
        if chance(rng, 3):
            script.repair(block, (shape.r + 1) * shape.packet)
        for position in rng.sample(range(shape.n), rng.choice([shape.n, min(shape.n, 4)])):
            script.fetch(block, position, shape.packet)
        script.count(block)


def play(script, shape):
    """One transmission: a shape, its packets amid other calls, and the repairs."""
    rng = script.rng
    for _ in range(rng.choice([0, 0, 1, 3])):
        bad_shape(script, shape)
    script.take_shape(shape)
    blocks = scripted_blocks(rng, script.field, shape)
    calm = rng.choice([3, 10, 1000])
    packets = arrivals(rng, shape)
    if script.receiver.shape != shape:
        packets = packets[:9]
    for block, position in packets:
        while chance(rng, calm):
            disturb(script, shape, blocks)
        script.take_packet(block, position, blocks[block][position])
        if chance(rng, 200):
            near_shape(script)
    if chance(rng, 4):
        near_shape(script)
    if chance(rng, 2):
        same_shape(script)
    if not chance(rng, 8):
        close(script, shape)
    if chance(rng, 6):
        bad_shape(script, shape)
        close(script, shape)


def make_script(seed, number):
    """The lines of a script, each with its answer or None."""
    rng = generator(seed, "script", number)
    script = Script(rng)
    blank = [script.plans[0], [[[0] * script.plans[0].packet] * script.plans[0].n] * script.plans[0].B]
    for _ in range(rng.choice([0, 0, 2, 6])):
        disturb(script, *blank)
    for shape in script.plans:
        play(script, shape)
    return script.lines


# The kinds that are printed line by line

KINDS = {
    "fields": field_case,
    "blocks": block_case,
    "stores": store_case,
    "frames": frame_case,
    "sender": sender_case,
    "host": host_case,
}


def make_lines(kind, count, seed):
    """All powers and inverses for the fields; and so many random cases of the kind."""
    if kind == "fields":
        yield from field_cases()
    for number in range(count):
        yield KINDS[kind](generator(seed, kind, number), number)


def main():
    kind, number, seed = sys.argv[1], int(sys.argv[2]), sys.argv[3]
    print(f"# {kind}, seed {seed}")
    if kind == "script":
        for call, answer in make_script(seed, number):
            print(call if answer is None else f"{call} = {answer}")
    else:
        for case in make_lines(kind, number, seed):
            print(case)


if __name__ == "__main__":
    main()
