"""The rules of Guyekpan a second time, in Python, written from docs/RULES.md alone.

Nothing here follows the Rattle code: a product is a carry-less multiplication and a division by the polynomial, a packet
is taken apart into its elements, and lost packets are found by Gaussian elimination on the sums.

A run is a list of words and is changed in place, as a slice would be. A refused call raises Refused. The names of the
five numbers of a shape are those of the rules: m, n, k, B, w.
"""

import collections
import functools
import itertools


class Refused(Exception):
    """A call is refused, with a number and the values that this number carries."""

    def __init__(self, number, *values):
        super().__init__(number, *values)
        self.number = number
        self.values = values


# Arithmetic


def carryless(a, b):
    """The product of two polynomials over two elements, each as the number whose bits are its coefficients."""
    total = 0
    for bit in range(b.bit_length()):
        if b >> bit & 1:
            total ^= a << bit
    return total


class Field:
    """The field of 2^m elements that a polynomial of degree m gives."""

    def __init__(self, width, polynomial):
        self.width = width
        self.polynomial = polynomial
        self.order = (1 << width) - 1

    def remainder(self, number):
        """What a division by the polynomial leaves."""
        while number > self.order:
            number ^= self.polynomial << (number.bit_length() - 1 - self.width)
        return number

    def product(self, a, b):
        return self.remainder(carryless(a & self.order, b & self.order))

    def inverse(self, a):
        """The element that gives 1 with a, found by trial; 0 for 0."""
        return next((b for b in range(1, self.order + 1) if self.product(a, b) == 1), 0)

    @functools.lru_cache(maxsize=None)
    def power(self, exponent):
        """The number 2 to the power of the exponent."""
        result = 1
        for bit in bin(exponent)[2:]:
            result = self.product(result, result)
            if bit == "1":
                result = self.product(result, 2)
        return result

    @functools.lru_cache(maxsize=None)
    def multiples(self, a):
        """The product of a and each element, as a table for bytes.translate."""
        return bytes(self.product(a, b) if b <= self.order else 0 for b in range(256))

    def times(self, a, vector):
        """The product of a and each element of a vector."""
        return vector.translate(self.multiples(a))


NIBBLE = Field(4, 0x13)
OCTET = Field(8, 0x11D)
ARITHMETICS = {"nibble": NIBBLE, "stepped-octet": OCTET, "tabled-octet": OCTET}


# Shape


class Shape(collections.namedtuple("Shape", "m n k B w")):
    """The five numbers of a shape, checked by make_shape."""

    @property
    def r(self):
        return self.n - self.k

    @property
    def packet(self):
        """How many words a packet has."""
        return self.m * self.w


def make_shape(field, m, n, k, B, w):
    if m != field.width:
        raise Refused(1)
    if not (1 <= k < n and n - k <= 32):
        raise Refused(2)
    if n > field.order:
        raise Refused(3)
    if not (1 <= B <= 64 and 1 <= w <= 16):
        raise Refused(4)
    return Shape(m, n, k, B, w)


def check_width(field, shape):
    if shape.m != field.width:
        raise Refused(1)


def check_lengths(*runs):
    """Takes pairs of a run and the length that it must have."""
    for place, (run, length) in enumerate(runs):
        if len(run) != length:
            raise Refused(5, place)


# Lost positions


def check_losses(shape, losses):
    """What a loss list for this shape must keep: 6 for positions that do not ascend or are outside, 7 for too many."""
    ascending = all(a < b for a, b in zip(losses, losses[1:]))
    if not ascending or any(position >= shape.n for position in losses):
        raise Refused(6)
    if len(losses) > shape.r:
        raise Refused(7)


def make_losses(shape, positions):
    check_losses(shape, positions)
    return list(positions)


# Packets as vectors of elements: one byte an element, 32 elements for each word of a row


def spread(word):
    """The number that has bit i of the word in its byte i: the binary digits, each behind a 0, read as hexadecimal ones."""
    return int("0".join(f"{word:032b}"), 16)


def gather(number):
    """The word whose bit i is the lowest bit of byte i of the number."""
    lowest = number & spread(2**32 - 1)
    return int(f"{lowest:064x}"[1::2], 2)


def packet_elements(shape, packet):
    """The elements of a packet: at each bit of a row, row j gives bit j."""
    vector = b""
    for column in range(shape.w):
        rows = packet[column :: shape.w]
        elements = sum(spread(word) << row for row, word in enumerate(rows))
        vector += elements.to_bytes(32, "little")
    return vector


def packet_words(shape, vector):
    """The packet that has these elements."""
    columns = [int.from_bytes(vector[i : i + 32], "little") for i in range(0, len(vector), 32)]
    return [gather(elements >> row) for row in range(shape.m) for elements in columns]


def add(a, b):
    """The sum of two vectors."""
    total = int.from_bytes(a, "big") ^ int.from_bytes(b, "big")
    return total.to_bytes(len(a), "big")


def zero_vector(shape):
    return bytes(32 * shape.w)


def split(shape, run):
    """The packets of a run, as vectors."""
    size = shape.packet
    return [packet_elements(shape, run[start : start + size]) for start in range(0, len(run), size)]


def join(shape, vectors):
    """The run of the packets that these vectors are."""
    return [word for vector in vectors for word in packet_words(shape, vector)]


def zero(run):
    run[:] = [0] * len(run)


# Sums and the lost packets that they tell


def sums_of(field, shape, packets):
    """Sums 0 to r - 1 of the packets, which are given by their positions."""
    sums = []
    for mu in range(shape.r):
        total = zero_vector(shape)
        for position, vector in packets.items():
            total = add(total, field.times(field.power(mu * position), vector))
        sums.append(total)
    return sums


def gauss(field, matrix, right):
    """The vectors x with matrix times x = right, for a square matrix that has an inverse."""
    rows = [(list(coefficients), vector) for coefficients, vector in zip(matrix, right)]
    for column in range(len(rows)):
        pivot = next(i for i in range(column, len(rows)) if rows[i][0][column])
        rows[column], rows[pivot] = rows[pivot], rows[column]
        rows[column] = scaled(field, field.inverse(rows[column][0][column]), rows[column])
        for i in range(len(rows)):
            if i != column:
                rows[i] = gained(field, rows[i], rows[i][0][column], rows[column])
    return [vector for _, vector in rows]


def scaled(field, factor, row):
    coefficients, vector = row
    return [field.product(factor, c) for c in coefficients], field.times(factor, vector)


def gained(field, row, factor, other):
    """A row of equations plus the factor times another."""
    coefficients, vector = scaled(field, factor, other)
    return [a ^ b for a, b in zip(row[0], coefficients)], add(row[1], vector)


def solve(field, shape, sums, losses):
    """The packets at the lost positions, from the sums of the others; 8 where the sums that are left are not all zero."""
    t = len(losses)
    matrix = [[field.power(mu * position) for position in losses] for mu in range(t)]
    found = dict(zip(losses, gauss(field, matrix, sums[:t])))
    for mu, total in enumerate(sums_of(field, shape, found)):
        rest = packet_words(shape, add(total, sums[mu]))
        if any(rest):
            raise Refused(8, mu, next(i for i, word in enumerate(rest) if word))
    return found


def is_codeword(field, shape, block):
    packets = dict(enumerate(split(shape, block)))
    return not any(any(total) for total in sums_of(field, shape, packets))


# Block calls


def encode(field, shape, source, parity):
    check_width(field, shape)
    check_lengths((source, shape.k * shape.packet), (parity, shape.r * shape.packet))
    known = {shape.r + i: vector for i, vector in enumerate(split(shape, source))}
    found = solve(field, shape, sums_of(field, shape, known), range(shape.r))
    parity[:] = join(shape, found.values())


def check(field, shape, block, work):
    check_width(field, shape)
    check_lengths((block, shape.n * shape.packet), (work, (shape.r + 1) * shape.packet))
    zero(work)
    return is_codeword(field, shape, block)


def repair(field, shape, block, work, losses):
    check_width(field, shape)
    check_lengths((block, shape.n * shape.packet), (work, (shape.r + 1) * shape.packet))
    check_losses(shape, losses)
    zero(work)
    packets = {i: vector for i, vector in enumerate(split(shape, block)) if i not in losses}
    found = solve(field, shape, sums_of(field, shape, packets), losses)
    for position, vector in found.items():
        start = position * shape.packet
        block[start : start + shape.packet] = packet_words(shape, vector)


def absorb(field, shape, position, sums, packet):
    check_width(field, shape)
    check_lengths((sums, shape.r * shape.packet), (packet, shape.packet))
    if position >= shape.n:
        raise Refused(11)
    gains = sums_of(field, shape, {position: packet_elements(shape, packet)})
    sums[:] = join(shape, [add(a, b) for a, b in zip(split(shape, sums), gains)])


def rebuild(field, shape, sums, scratch, losses):
    check_width(field, shape)
    check_lengths((sums, shape.r * shape.packet), (scratch, shape.packet))
    check_losses(shape, losses)
    given = split(shape, sums)
    zero(sums)
    zero(scratch)
    found = join(shape, solve(field, shape, given, losses).values())
    sums[: len(found)] = found


# Slot stores: a capacity and a grid


class Store:
    """A store by its meaning: the packets in the slots of a grid."""

    def __init__(self, capacity):
        self.capacity = capacity
        self.rows = self.columns = self.size = 0
        self.slots = {}

    def format(self, rows, columns, size):
        if 0 in (rows, columns, size) or rows > 1023 or columns > 1023 or size > 256:
            raise Refused(20)
        if rows * columns * (size + 1) > self.capacity:
            raise Refused(20)
        self.rows, self.columns, self.size = rows, columns, size
        self.slots = {}

    def check_slot(self, row, column):
        if row >= self.rows or column >= self.columns:
            raise Refused(21)

    def held(self, row, column):
        self.check_slot(row, column)
        return (row, column) in self.slots

    def put(self, row, column, words):
        self.check_slot(row, column)
        if len(words) != self.size:
            raise Refused(24)
        if (row, column) in self.slots:
            raise Refused(22)
        self.slots[row, column] = list(words)

    def get(self, row, column, run):
        self.check_slot(row, column)
        if len(run) != self.size:
            raise Refused(24)
        if (row, column) not in self.slots:
            raise Refused(23)
        run[:] = self.slots[row, column]


def memory_store(words):
    return Store(words)


def nor_store(words):
    return Store(max(words - 1, 0))


class Transposed:
    """A store that exchanges the rows and columns of the one below."""

    def __init__(self, below):
        self.below = below

    def format(self, rows, columns, size):
        self.below.format(columns, rows, size)

    def held(self, row, column):
        return self.below.held(column, row)

    def put(self, row, column, words):
        self.below.put(column, row, words)

    def get(self, row, column, run):
        self.below.get(column, row, run)


def memory_words(store, before):
    """The words of a memory store's run, from its grid and from the words that the run had at first."""
    if store.rows == 0:
        return list(before)
    return laid_out(store, 1, 0, len(before))


def nor_words(store, before):
    """The words of a NOR store's run; the first is the lock, which is shut after every call."""
    if store.rows == 0:
        return [0] * len(before[:1]) + list(before[1:])
    return [0] + laid_out(store, 0, 0xFFFFFFFF, len(before) - 1)


def laid_out(store, filled, erased, length):
    """Slot after slot, row by row, each a mark and a packet, and erased words behind them."""
    words = []
    for slot in itertools.product(range(store.rows), range(store.columns)):
        if slot in store.slots:
            words += [filled, *store.slots[slot]]
        else:
            words += [erased] * (store.size + 1)
    return words + [erased] * (length - len(words))


STORES = {
    "memory": memory_store,
    "nor": nor_store,
    "transposed memory": lambda words: Transposed(memory_store(words)),
    "transposed nor": lambda words: Transposed(nor_store(words)),
}


# Frames

ShapeFrame = collections.namedtuple("ShapeFrame", "m n k B w")
PacketFrame = collections.namedtuple("PacketFrame", "block position payload")


def bits(word, high, low):
    """Bits high to low of a word, as a number."""
    return word >> low & ((1 << (high - low + 1)) - 1)


def read_frame(frame):
    if not frame:
        raise Refused(9)
    kind = bits(frame[0], 31, 28)
    if kind == 1:
        return read_shape_frame(frame)
    if kind == 3 and bits(frame[0], 27, 24) == 0:
        return PacketFrame(bits(frame[0], 23, 12), bits(frame[0], 11, 0), frame[1:])
    raise Refused(9)


def read_shape_frame(frame):
    if len(frame) != 2 or bits(frame[1], 31, 28) != 2 or bits(frame[1], 15, 8) != 0:
        raise Refused(9)
    first, second = frame
    m, n, k = bits(first, 27, 24), bits(first, 23, 12), bits(first, 11, 0)
    return ShapeFrame(m, n, k, bits(second, 27, 16), bits(second, 7, 0))


def check_fits(*numbers):
    """Takes pairs of a number and how many bits it has."""
    if any(number >= 1 << width for number, width in numbers):
        raise Refused(9)


def write_shape_frame(m, n, k, B, w, run):
    check_fits((m, 4), (n, 12), (k, 12), (B, 12), (w, 8))
    check_lengths((run, 2))
    run[:] = [1 << 28 | m << 24 | n << 12 | k, 2 << 28 | B << 16 | w]


def write_packet_frame(block, position, payload, run):
    check_fits((block, 12), (position, 12))
    check_lengths((run, 1 + len(payload)))
    run[:] = [3 << 28 | block << 12 | position] + payload


# Receiver


class Receiver:
    """A board's receiver over one field and one store."""

    def __init__(self, field, store):
        self.field = field
        self.store = store
        self.shape = None
        self.shape_frame = None

    def check_shape(self):
        if self.shape is None:
            raise Refused(10)

    def check_place(self, block, position=0):
        if block >= self.shape.B or position >= self.shape.n:
            raise Refused(11)

    def packet(self, block, position):
        """The packet that is held there, or None."""
        if not self.store.held(block, position):
            return None
        run = [0] * self.shape.packet
        self.store.get(block, position, run)
        return run

    def packets(self, block):
        """The packets that the block holds, by position."""
        found = {position: self.packet(block, position) for position in range(self.shape.n)}
        return {position: packet for position, packet in found.items() if packet is not None}

    def take(self, frame):
        """Answers "shaped", "fresh" or "known"."""
        content = read_frame(frame)
        if isinstance(content, ShapeFrame):
            return self.take_shape(list(frame), content)
        return self.take_packet(content)

    def take_shape(self, frame, numbers):
        if frame == self.shape_frame:
            return "known"
        shape = make_shape(self.field, *numbers)
        self.store.format(shape.B, shape.n, shape.packet)
        self.shape = shape
        self.shape_frame = frame
        return "shaped"

    def take_packet(self, frame):
        self.check_shape()
        check_lengths((frame.payload, self.shape.packet))
        self.check_place(frame.block, frame.position)
        held = self.packet(frame.block, frame.position)
        if held is None:
            self.store.put(frame.block, frame.position, frame.payload)
            return "fresh"
        if held != frame.payload:
            raise Refused(12)
        return "known"

    def repair(self, block, work):
        """Answers how many packets were missing."""
        self.check_shape()
        self.check_place(block)
        shape = self.shape
        check_lengths((work, (shape.r + 1) * shape.packet))
        held = self.packets(block)
        if len(held) < shape.k:
            raise Refused(7)
        zero(work)
        missing = [position for position in range(shape.n) if position not in held]
        vectors = {position: packet_elements(shape, packet) for position, packet in held.items()}
        found = solve(self.field, shape, sums_of(self.field, shape, vectors), missing)
        for position, vector in found.items():
            self.store.put(block, position, packet_words(shape, vector))
        return len(missing)

    def fetch(self, block, position, run):
        self.check_shape()
        self.check_place(block, position)
        check_lengths((run, self.shape.packet))
        packet = self.packet(block, position)
        if packet is None:
            raise Refused(23)
        run[:] = packet

    def count(self, block):
        self.check_shape()
        self.check_place(block)
        return len(self.packets(block))


# Sender


def part(run, block, size):
    """A block's part of a run in which each block has `size` words."""
    return run[block * size : (block + 1) * size]


def image_words(shape):
    return shape.B * shape.k * shape.packet


def parity_words(shape):
    return shape.B * shape.r * shape.packet


def prepare(field, shape, image, parity):
    check_width(field, shape)
    check_lengths((image, image_words(shape)), (parity, parity_words(shape)))
    result = []
    for block in range(shape.B):
        block_parity = [0] * (shape.r * shape.packet)
        encode(field, shape, part(image, block, shape.k * shape.packet), block_parity)
        result += block_parity
    parity[:] = result


def numbering(shape, number):
    """The block and the position of a packet frame."""
    if not 1 <= number <= shape.B * shape.n:
        raise Refused(11)
    return (number - 1) % shape.B, (number - 1) // shape.B


def broadcast(shape):
    """The numbers of the frames in the order in which they go out."""
    order = [0]
    for number in range(1, shape.B * shape.n + 1):
        order.append(number)
        if number % 50 == 0:
            order.append(0)
    return order


def turns(shape):
    return len(broadcast(shape))


def frame_of(shape, turn):
    order = broadcast(shape)
    if turn >= len(order):
        raise Refused(11)
    return order[turn]


def payload(shape, number, image, parity):
    block, position = numbering(shape, number)
    check_lengths((image, image_words(shape)), (parity, parity_words(shape)))
    if position < shape.r:
        return part(part(parity, block, shape.r * shape.packet), position, shape.packet)
    return part(part(image, block, shape.k * shape.packet), position - shape.r, shape.packet)


def sender_frame(shape, number, image, parity, frame):
    if number > shape.B * shape.n:
        raise Refused(11)
    length = 2 if number == 0 else shape.packet + 1
    check_lengths((image, image_words(shape)), (parity, parity_words(shape)), (frame, length))
    if number == 0:
        write_shape_frame(*shape, frame)
    else:
        write_packet_frame(*numbering(shape, number), payload(shape, number, image, parity), frame)


# Calls for a C host: byte strings, which are bytearrays and are changed in place


def host_answer(call):
    """The number that a host gets: what the call answers, or its refusal as a number."""
    try:
        return call()
    except Refused as refusal:
        if refusal.number == 5:
            return 5 + 256 * refusal.values[0]
        if refusal.number == 8:
            return 8 + 256 * refusal.values[0] + 65536 * refusal.values[1]
        return refusal.number


def host_shape(m, n, k, w):
    shape = make_shape(OCTET, m, n, k, 1, w)
    if n * m * w > 8192:
        raise Refused(4)
    return shape


def spelled(string):
    """The words that a byte string spells, the highest byte first."""
    return [int.from_bytes(string[i : i + 4], "big") for i in range(0, len(string), 4)]


def spell(words, string):
    string[:] = b"".join(word.to_bytes(4, "big") for word in words)


def check_strings(*strings):
    """Takes pairs of a string and how many words it must spell."""
    check_lengths(*((string, 4 * words) for string, words in strings))


def host_encode(m, n, k, w, source, parity):
    def call():
        shape = host_shape(m, n, k, w)
        check_strings((source, shape.k * shape.packet), (parity, shape.r * shape.packet))
        words = spelled(parity)
        encode(OCTET, shape, spelled(source), words)
        spell(words, parity)
        return 0

    return host_answer(call)


def host_check(m, n, k, w, block, work):
    def call():
        shape = host_shape(m, n, k, w)
        check_strings((block, shape.n * shape.packet), (work, (shape.r + 1) * shape.packet))
        words = spelled(work)
        answer = check(OCTET, shape, spelled(block), words)
        spell(words, work)
        return 0 if answer else 255

    return host_answer(call)


def host_repair(m, n, k, w, block, losses, work):
    def call():
        shape = host_shape(m, n, k, w)
        check_strings((block, shape.n * shape.packet), (work, (shape.r + 1) * shape.packet))
        if len(losses) % 2:
            raise Refused(6)
        positions = [int.from_bytes(losses[i : i + 2], "big") for i in range(0, len(losses), 2)]
        check_losses(shape, positions)
        words, work_words = spelled(block), spelled(work)
        try:
            repair(OCTET, shape, words, work_words, positions)
        finally:
            spell(words, block)
            spell(work_words, work)
        return 0

    return host_answer(call)
