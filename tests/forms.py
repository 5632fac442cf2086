#!/usr/bin/env python3
"""What the program `forms` must print, worked out from the words of the scope and from nothing of the product.

    tests/forms.py > crates/forms/stdout

The batches are taken from tests/changing.py, which finds every tree from nothing; a stream is read here, byte by byte.
"""
from changing import at_pier, line

ROOM = 6
BODY = {1: 4, 2: 6, 3: 4, 4: 0, 5: 2}


def batches():
    """Each batch of two rows; where the scope's has one, the second leaves link 2's cost as it is."""
    at_pier().step("P2", [3, 0], [5, 2], ROOM).step("P4", [3, 2], [6, 4], ROOM).step("P5", [3, 2], [5, 4], ROOM)
    for name, link, cost in [("P6", 1, 6), ("P7", 1, 5), ("P8", 0, 0), ("P9", 6, 0), ("P10", 7, 0),
                             ("a link again", 2, 9), ("no such link", 8, 1)]:
        at_pier().step(name, [link, 2], [cost, 4], ROOM)


def item_at(stream, place):
    """What stands at a place: the record's kind and numbers, 0 at the end, or the refusal and its place; and the next place."""
    if place >= len(stream):
        return [0], place
    kind = stream[place]
    if kind not in BODY:
        return [21, place], place
    end = place + 1 + BODY[kind]
    if end > len(stream):
        return [22, place], place
    return [kind] + [stream[k] * 256 + stream[k + 1] for k in range(place + 1, end, 2)], end


def read(name, stream, times):
    place = 0
    for _ in range(times):
        item, place = item_at(stream, place)
        line(name, item, [place])


def streams():
    whole = bytes([1, 0, 4, 0, 0, 2, 0, 0, 0, 1, 255, 255, 3, 1, 2, 3, 4, 4, 5, 0, 3])
    read("whole", whole, 7)
    read("empty", b"", 2)
    read("cut by a byte", whole[:-1], 6)
    read("cut in a link", whole[:11], 3)
    read("a kind byte alone", whole[:6], 3)
    read("kind 0", bytes([5, 0, 1, 0, 4]), 3)
    read("kind 6", bytes([4, 6, 4]), 3)
    read("kind 255", bytes([255]), 2)


if __name__ == "__main__":
    batches()
    streams()
