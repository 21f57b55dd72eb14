"""The known values of docs/RULES.md, asked of guyekpan.py."""

import guyekpan as g


def refusal(call, *arguments):
    """The number and the values with which a call is refused, or None."""
    try:
        call(*arguments)
    except g.Refused as refused:
        return (refused.number, *refused.values)
    return None


def fields():
    assert [g.NIBBLE.power(i) for i in (4, 7)] == [3, 11]
    assert g.NIBBLE.inverse(2) == 9
    assert [g.OCTET.power(i) for i in (8, 9)] == [0x1D, 0x3A]
    for field in (g.NIBBLE, g.OCTET):
        assert len({field.power(i) for i in range(field.order)}) == field.order


def block_of_three():
    shape = g.make_shape(g.NIBBLE, 4, 3, 1, 1, 1)
    source, parity = [1, 2, 4, 8], [0] * 8
    g.encode(g.NIBBLE, shape, source, parity)
    assert parity == [8, 9, 2, 4, 9, 0xB, 6, 0xC]
    whole = parity + source
    assert g.check(g.NIBBLE, shape, whole, [7] * 12)
    block = [7] * 4 + whole[4:8] + [7] * 4
    g.repair(g.NIBBLE, shape, block, [0] * 12, [0, 2])
    assert block == whole
    assert refusal(g.make_losses, shape, [0, 1, 2]) == (7,)
    wrong = whole[:4] + [8] + whole[5:]
    assert refusal(g.repair, g.NIBBLE, shape, wrong, [0] * 12, []) == (8, 0, 0)
    assert refusal(g.repair, g.NIBBLE, shape, wrong, [0] * 12, [0]) == (8, 1, 0)


def frames():
    run = [0, 0]
    g.write_shape_frame(4, 3, 1, 1, 1, run)
    assert run == [0x14003001, 0x20010001]
    run = [0]
    g.write_packet_frame(0, 2, [], run)
    assert run == [0x30000002]


def shape_again():
    shape, packet = [0x14003001, 0x20010001], [0x30000002, 7, 8, 9, 0xA]
    receiver = g.Receiver(g.NIBBLE, g.memory_store(15))
    assert [receiver.take(frame) for frame in (shape, packet, shape, packet)] == ["shaped", "fresh", "known", "known"]
    assert receiver.count(0) == 1
    assert refusal(receiver.take, [0x14004001, 0x20010001]) == (20,)
    assert receiver.take(shape) == "known"
    assert receiver.take([0x14003002, 0x20010001]) == "shaped"
    assert receiver.count(0) == 0
    assert receiver.take(shape) == "shaped"


def order():
    fifty = g.make_shape(g.NIBBLE, 4, 10, 9, 5, 1)
    assert g.turns(fifty) == 52
    assert [g.frame_of(fifty, turn) for turn in range(52)] == [*range(51), 0]
    assert refusal(g.frame_of, fifty, 52) == (11,)
    more = g.make_shape(g.NIBBLE, 4, 13, 9, 4, 1)
    assert g.turns(more) == 54
    assert [g.frame_of(more, turn) for turn in (50, 51, 52, 53)] == [50, 0, 51, 52]


def limits():
    assert refusal(g.memory_store(15).format, 1, 3, 4) is None
    assert refusal(g.memory_store(14).format, 1, 3, 4) == (20,)
    assert refusal(g.make_shape, g.NIBBLE, 4, 15, 10, 1, 1) is None
    assert refusal(g.make_shape, g.NIBBLE, 4, 16, 10, 1, 1) == (3,)
    assert refusal(g.make_shape, g.OCTET, 8, 255, 223, 1, 1) is None
    assert refusal(g.make_shape, g.OCTET, 8, 255, 222, 1, 1) == (2,)


if __name__ == "__main__":
    for known in (fields, block_of_three, frames, shape_again, order, limits):
        known()
    print("known values: all as in the rules")
