#!/usr/bin/env python3
"""Writes the base image: python3 tools/base_image.py FILE

The base image is a small 64-bit Spur image: every internal object of the format, the classes that scripts need and the
special objects array. It is written here from its description as a table, apart from the proved writer.
"""

import struct
import sys

BASE = 1_048_576  # the address of the heap's first word
HEAP_WORDS = 6_286

SPUR_FORMAT = 68_021  # a 64-bit Spur image
HEADER_BYTES = 128

# class index, word of its header, the SmallInteger in its slot 2: format of the instances times 2^16, plus fixed slots
CLASSES = [
    (1, 6229, 0),  # of SmallIntegers
    (2, 6233, 0),  # of Characters
    (4, 6237, 0),  # of SmallFloats
    (32, 6241, 65_539),  # of classes
    (33, 6245, 0),  # of nil, false and true
    (51, 6249, 131_072),  # arrays
    (52, 6253, 1_048_576),  # bytes
    (53, 6257, 262_145),  # weak, one fixed slot
    (54, 6261, 327_682),  # ephemerons, two fixed slots
    (55, 6265, 65_538),  # points, two fixed slots
    (56, 6269, 196_609),  # indexable with one fixed slot
]

NIL, FALSE, TRUE = 0, 2, 4
FREE_LISTS = 6
HIDDEN_ROOTS = 72
FIRST_PAGE, SECOND_PAGE = 4178, 5204
SPECIAL_ARRAY = 6273
SPECIAL_CLASSES = [51, 52, 53, 54, 55, 56, 32]


def address(word):
    """The address of a word of the heap."""
    return BASE + 8 * word


def header_word(slots, form, class_index, identity=0):
    """The header word of an object without flags: 8 bits slots, 22 bits hash, 5 bits format, 22 bits class index."""
    return slots << 56 | identity << 32 | form << 24 | class_index


def put_object(heap, at, form, class_index, slots, identity=0):
    """Puts an object with its header at `at`. From 255 slots on, their count stands in a word before the header."""
    if len(slots) >= 255:
        heap[at - 1] = 255 << 56 | len(slots)
    heap[at] = header_word(min(len(slots), 255), form, class_index, identity)
    heap[at + 1 : at + 1 + len(slots)] = slots


def heap_words():
    heap = [0] * HEAP_WORDS  # the last two words stay 0: the bridge
    nil = address(NIL)
    class_at = {index: address(word) for index, word, _ in CLASSES}

    for singleton in (NIL, FALSE, TRUE):
        put_object(heap, singleton, form=0, class_index=33, slots=[])
    put_object(heap, FREE_LISTS, form=9, class_index=19, slots=[0] * 64)

    pages = [address(FIRST_PAGE), address(SECOND_PAGE)]
    put_object(heap, HIDDEN_ROOTS, form=2, class_index=16, slots=pages + [nil] * 4102)
    entries = [class_at.get(index, nil) for index in range(1024)]
    put_object(heap, FIRST_PAGE, form=2, class_index=16, slots=entries)
    put_object(heap, SECOND_PAGE, form=2, class_index=16, slots=[nil] * 1024)

    for index, word, layout in CLASSES:
        # a SmallInteger has the tag 1 in its low three bits
        put_object(heap, word, form=1, class_index=32, slots=[nil, nil, layout << 3 | 1], identity=index)

    special = [nil, address(FALSE), address(TRUE)] + [class_at[index] for index in SPECIAL_CLASSES]
    put_object(heap, SPECIAL_ARRAY, form=2, class_index=51, slots=special)
    return heap


def header(words):
    """The 128 bytes in front of a heap of so many words. What is not named is 0."""
    heap_bytes = 8 * words
    fields = [
        (0, "<I", SPUR_FORMAT),
        (4, "<I", HEADER_BYTES),
        (8, "<Q", heap_bytes),
        (16, "<Q", BASE),
        (24, "<Q", address(SPECIAL_ARRAY)),
        (32, "<Q", 1),  # the last hash
        (72, "<Q", heap_bytes),  # of the first segment, which is the whole heap
    ]
    front = bytearray(HEADER_BYTES)
    for at, width, value in fields:
        struct.pack_into(width, front, at, value)
    return bytes(front)


def main():
    if len(sys.argv) != 2:
        sys.exit("usage: base_image.py FILE")
    heap = heap_words()
    with open(sys.argv[1], "wb") as file:
        file.write(header(len(heap)) + struct.pack(f"<{len(heap)}Q", *heap))


if __name__ == "__main__":
    main()
