#!/usr/bin/env python3
"""Writes the cases of this crate: `stdin`, which the program reads, and `stdout`, which it must then print.

Run it in any folder, with no argument. The bytes of a case are put together here from numbers at places. The answer that is
expected of them stands beside each case, and is worked out by hand from the rules of the format, never from a run.

A line of `stdin` is NAME LEVELS TABLES RECORDS EXPECTED BYTES, with the limits of levels and tables and the number of records.
EXPECTED is `refused:N;`, or `accepted:N;` and a part `PLACE/PARENT/DEPTH/INDEX/ENCODING/ROWS/METADATA/CHILDREN/BELOW/SEGMENTS;`
for each table, in the order of their numbers. PARENT is the number of the parent, INDEX the place among its children, CHILDREN
the number of children, BELOW the number of all tables below. METADATA is `FROM:HEX` and SEGMENTS is `FROM:ID:ID`, where FROM is
the place of the first element, and 0 where the vector is absent. All parts are left out where they are thousands.
BYTES is hex in parts between dots, where `00*16` stands for sixteen bytes of 0.
"""

import itertools
import pathlib
import struct

HERE = pathlib.Path(__file__).parent
LINES = []
NAMES = []


# Numbers as bytes, and bytes at places.

def u16(*numbers):
    return b"".join(struct.pack("<H", number) for number in numbers)


def u32(*numbers):
    return b"".join(struct.pack("<I", number) for number in numbers)


def i32(number):
    return struct.pack("<i", number)


def u64(number):
    return struct.pack("<Q", number)


def vtable(*entries):
    """The vtable of these entries. They stand for encoding, rows, metadata, children and segments, in this order."""
    size = 4 + 2 * len(entries)
    return u16(size, 4, *entries)


def at(place, *pieces):
    return place, b"".join(pieces)


def lay(*parts):
    """The parts at their places, with bytes of 0 between them. They come in order and do not overlap."""
    whole = bytearray()
    for place, piece in parts:
        assert len(whole) <= place, f"two parts overlap at {place}"
        whole += bytes(place - len(whole)) + piece
    return bytes(whole)


def changed(whole, *parts):
    """The same bytes, with other ones at some places."""
    whole = bytearray(whole)
    for place, piece in parts:
        assert place + len(piece) <= len(whole), f"a change at {place} lies outside"
        whole[place:place + len(piece)] = piece
    return bytes(whole)


# The lines of the two files.

def hex_text(whole):
    """The bytes in hex, with each run of 32 equal bytes or more in its short form."""
    parts = [""]
    for byte, run in itertools.groupby(whole):
        length = len(list(run))
        if length < 32:
            parts[-1] += f"{byte:02x}" * length
        else:
            parts += [f"{byte:02x}*{length}", ""]
    return ".".join(part for part in parts if part) or "00*0"


def say(*lines):
    """A comment on the next cases."""
    LINES.extend(f"# {line}" for line in lines)


def case(name, levels, tables, records, expected, whole):
    """A case. A `;` is added to what is expected, and either none or all of its tables are listed there."""
    assert name not in NAMES, f"two cases are called {name}"
    answer, *listed = expected.split(";")
    assert not listed or answer == f"accepted:{len(listed)}", f"{name} does not list its tables"
    NAMES.append(name)
    LINES.append(f"{name} {levels} {tables} {records} {expected}; {hex_text(whole)}")


def single(name, expected, whole):
    """A case of one table, with one record more than it takes."""
    case(name, 1, 1, 2, expected, whole)


# The bytes that most cases are changed from.

# A table with no field. Its vtable stands at 4, and the table at 8. 12 bytes.
ALONE = lay(at(0, u32(8)), at(4, vtable()), at(8, i32(4)))
ALONE_ACCEPTED = "accepted:1;8/0/1/0/0/0/0:/0/0/0"

# A table at 4 with its vtable after it, at 8. 12 bytes.
VTABLE_AFTER = lay(at(0, u32(4)), at(4, i32(-4)), at(8, vtable()))
VTABLE_AFTER_ACCEPTED = "accepted:1;4/0/1/0/0/0/0:/0/0/0"

# A table at 24 with every field, whose vtable at 4 has its entries at 8, 10, 12, 14 and 16. The fields stand at 28, 32, 40, 44
# and 48. The vectors stand at 52, 60 and 64: three bytes of metadata, no children, and two segments, which end the 76 bytes.
EVERY = lay(
    at(0, u32(24)),
    at(4, vtable(4, 8, 16, 20, 24)),
    at(24, i32(20), u16(513), u16(0), u64(1234567)),
    at(40, u32(52 - 40), u32(60 - 44), u32(64 - 48)),
    at(52, u32(3), b"\xa1\xa2\xa3"),
    at(60, u32(0)),
    at(64, u32(2), u32(7, 4294967295)),
)
EVERY_ACCEPTED = "accepted:1;24/0/1/0/513/1234567/56:a1a2a3/0/0/68:7:4294967295"

# The entries of EVERY, its offsets, and the counts of its vectors.
ENCODING, ROWS, METADATA, CHILDREN, SEGMENTS = 8, 10, 12, 14, 16
TO_METADATA, TO_CHILDREN, TO_SEGMENTS = 40, 44, 48
METADATA_COUNT, CHILDREN_COUNT, SEGMENTS_COUNT = 52, 60, 64

# The two vtables of the trees below: one with no field at 4, and one with children at 8, whose offset stands 4 into the table.
# The root's table stands at 20.
TREE = [at(0, u32(20)), at(4, vtable()), at(8, vtable(0, 0, 0, 4))]

# The root at 20 and its only child at 36. The vector of children stands at 28, and the offset of the child at 32. 40 bytes.
PAIR = lay(*TREE, at(20, i32(12), u32(4)), at(28, u32(1), u32(36 - 32)), at(36, i32(32)))
PAIR_ACCEPTED = "accepted:2;20/0/1/0/0/0/0:/1/1/0;36/0/2/0/0/0/0:/0/0/0"

# The root at 20 with two children, at 48 and 60. All three share the vtable at 4, and have children and segments, whose offsets
# stand 4 and 8 into the table. The root's vector of children stands at 32, with the offsets of the children at 36 and 40. Its
# segments stand at 44 and are empty. Both children have the vector at 72 as children, which is empty, and the one at 76 as
# segments. 84 bytes.
THREE = lay(
    at(0, u32(20)),
    at(4, vtable(0, 0, 0, 4, 8)),
    at(20, i32(16), u32(32 - 24), u32(44 - 28)),
    at(32, u32(2), u32(48 - 36), u32(60 - 40)),
    at(44, u32(0)),
    at(48, i32(44), u32(72 - 52), u32(76 - 56)),
    at(60, i32(56), u32(72 - 64), u32(76 - 68)),
    at(72, u32(0)),
    at(76, u32(1), u32(9)),
)
THREE_ACCEPTED = "accepted:3;20/0/1/0/0/0/0:/2/2/48;48/0/2/0/0/0/0:/0/0/80:9;60/0/2/1/0/0/0:/0/0/80:9"

# Places in THREE: the offsets to the root's segments and to the two children, the children, and the offsets to their segments.
ROOT_SEGMENTS, TO_FIRST, TO_SECOND = 28, 36, 40
FIRST, FIRST_SEGMENTS, SECOND, SECOND_SEGMENTS = 48, 56, 60, 68


def levels_of(*counts):
    """A tree with the vtables of TREE. The table of each level has that many children, all at the table of the next level."""
    parts = list(TREE)
    place = 20
    for count in counts:
        offsets = [4 * (count - k) for k in range(count)]
        parts.append(at(place, i32(place - 8), u32(4), u32(count), u32(*offsets)))
        place += 12 + 4 * count
    parts.append(at(place, i32(place - 4)))
    return lay(*parts)


def one_child_each(levels):
    """A tree of that many tables, each the only child of the one above. They stand at 20, 36, 52 and so on."""
    return levels_of(*[1] * (levels - 1))


def two_children_each(levels):
    """A tree in which each table but that of the last level has the next table as its child twice."""
    return levels_of(*[2] * (levels - 1))


# The cases.

say("The fewest bytes: a table at 4 whose vtable is the offset at 0, read as a size of 4.")
case("fewest-bytes", 1, 1, 1, "accepted:1;4/0/1/0/0/0/0:/0/0/0", u32(4) + i32(4))
say("A table with no field, and one with every field.")
case("no-field", 1, 1, 1, ALONE_ACCEPTED, ALONE)
case("every-field", 1, 1, 1, EVERY_ACCEPTED, EVERY)
say("The records after the last table end empty.")
case("more-records-than-tables", 64, 4096, 9, EVERY_ACCEPTED, EVERY)

say("The number of bytes: at most 1,048,576. More are refused first, also where a limit is out of its range.")
case("most-bytes", 1, 1, 1, ALONE_ACCEPTED, ALONE + bytes(1048576 - 12))
single("a-byte-too-many", "refused:6", ALONE + bytes(1048577 - 12))
case("a-byte-too-many-no-level", 0, 1, 2, "refused:6", ALONE + bytes(1048577 - 12))
say("A segment in the last four of the most bytes, then with one byte less, and with one segment more.")
LAST = lay(
    at(0, u32(20)), at(4, vtable(0, 0, 0, 0, 4)), at(20, i32(16), u32(1048568 - 24)), at(1048568, u32(1), u32(5)))
single("segment-ends-most-bytes", "accepted:1;20/0/1/0/0/0/0:/0/0/1048572:5", LAST)
single("segment-ends-past-a-byte-less", "refused:8", LAST[:-1])
single("segment-past-most-bytes", "refused:8", changed(LAST, at(1048568, u32(2))))

say("The limits: levels from 1 to 64, tables from 1 to 4,096. They are checked before any byte is read.")
case("greatest-limits", 64, 4096, 2, ALONE_ACCEPTED, ALONE)
case("levels-0", 0, 1, 2, "refused:7", ALONE)
case("levels-65", 65, 1, 2, "refused:7", ALONE)
case("tables-0", 1, 0, 2, "refused:7", ALONE)
case("tables-4097", 1, 4097, 2, "refused:7", ALONE)
case("levels-0-no-bytes", 0, 1, 2, "refused:7", b"")

say("The offset at 0: it has four bytes, is not 0, and leads to a multiple of 4 with four bytes inside.")
single("no-bytes", "refused:8", b"")
single("three-bytes", "refused:8", bytes(3))
single("root-offset-0", "refused:10", u32(0))
single("root-at-10", "refused:9", changed(ALONE, at(0, u32(10))))
single("root-at-the-end", "refused:8", changed(ALONE, at(0, u32(12))))
single("root-a-byte-short", "refused:8", ALONE[:-1])
single("root-far-past-the-end", "refused:8", changed(ALONE, at(0, u32(4294967292))))
say("A place that is not a multiple of 4 is refused as such past the end too.")
single("root-past-the-end-at-4294967295", "refused:9", changed(ALONE, at(0, u32(4294967295))))

say("The place of the vtable: that of the table, less the signed number there. Below 0 it is past the end, also if it is odd.")
single("vtable-after-its-table", VTABLE_AFTER_ACCEPTED, VTABLE_AFTER)
single("vtable-at-minus-4", "refused:8", changed(ALONE, at(8, i32(12))))
single("vtable-at-minus-1", "refused:8", changed(ALONE, at(8, i32(9))))
single("vtable-at-minus-2147483639", "refused:8", changed(ALONE, at(8, i32(2147483647))))
single("vtable-at-3", "refused:9", changed(ALONE, at(8, i32(5))))
single("vtable-at-the-end", "refused:8", changed(VTABLE_AFTER, at(4, i32(-8))))
single("vtable-past-the-end-at-13", "refused:9", changed(VTABLE_AFTER, at(4, i32(-9))))
single("vtable-at-2147483652", "refused:8", changed(VTABLE_AFTER, at(4, i32(-2147483648))))
single("vtable-size-a-byte-short", "refused:8", changed(VTABLE_AFTER, at(8, u16(0)))[:9])
single("vtable-end-a-byte-short", "refused:8", VTABLE_AFTER[:11])
say("A vtable at its own table has the size 0.")
single("vtable-at-its-table", "refused:10", changed(ALONE, at(8, i32(0))))

say("The size of the vtable: even and at least 4, which is checked before its end. Its second number is never looked at.")
single("vtable-size-0", "refused:10", changed(VTABLE_AFTER, at(8, u16(0)))[:10])
single("vtable-size-2", "refused:10", changed(VTABLE_AFTER, at(8, u16(2))))
single("vtable-size-5", "refused:10", changed(VTABLE_AFTER, at(8, u16(5))))
single("vtable-size-6-a-byte-short", "refused:8", changed(VTABLE_AFTER, at(8, u16(6))) + b"\x00")
single("vtable-size-6", VTABLE_AFTER_ACCEPTED, changed(VTABLE_AFTER, at(8, u16(6))) + b"\x00\x00")
single("vtable-size-65534", "refused:8", changed(VTABLE_AFTER, at(8, u16(65534))))
single("vtable-size-65535", "refused:10", changed(VTABLE_AFTER, at(8, u16(65535))))
single("second-number-65535", VTABLE_AFTER_ACCEPTED, changed(VTABLE_AFTER, at(10, u16(65535))))

say("The table with every field, under a vtable of another size: what lies at its end or past it is absent.")
single("every-field-size-4", "accepted:1;24/0/1/0/0/0/0:/0/0/0", changed(EVERY, at(4, u16(4))))
single("every-field-size-6", "accepted:1;24/0/1/0/513/0/0:/0/0/0", changed(EVERY, at(4, u16(6))))
single("every-field-size-8", "accepted:1;24/0/1/0/513/1234567/0:/0/0/0", changed(EVERY, at(4, u16(8))))
single("every-field-size-10", "accepted:1;24/0/1/0/513/1234567/56:a1a2a3/0/0/0", changed(EVERY, at(4, u16(10))))
single("every-field-size-12", "accepted:1;24/0/1/0/513/1234567/56:a1a2a3/0/0/0", changed(EVERY, at(4, u16(12))))
single("every-field-size-16", EVERY_ACCEPTED, changed(EVERY, at(4, u16(16))))
single("every-field-size-100", EVERY_ACCEPTED, changed(EVERY, at(4, u16(100))) + bytes(104 - 76))
single("every-field-size-100-a-byte-short", "refused:8", changed(EVERY, at(4, u16(100))) + bytes(103 - 76))

say("An entry of 0 means that the field is absent.")
single("entry-0-of-encoding", "accepted:1;24/0/1/0/0/1234567/56:a1a2a3/0/0/68:7:4294967295", changed(EVERY, at(ENCODING, u16(0))))
single("entry-0-of-rows", "accepted:1;24/0/1/0/513/0/56:a1a2a3/0/0/68:7:4294967295", changed(EVERY, at(ROWS, u16(0))))
single("entry-0-of-metadata", "accepted:1;24/0/1/0/513/1234567/0:/0/0/68:7:4294967295", changed(EVERY, at(METADATA, u16(0))))
single("entry-0-of-children", EVERY_ACCEPTED, changed(EVERY, at(CHILDREN, u16(0))))
single("entry-0-of-segments", "accepted:1;24/0/1/0/513/1234567/56:a1a2a3/0/0/0", changed(EVERY, at(SEGMENTS, u16(0))))
say("With an entry of 0, children that stand in the bytes are not visited.")
single("entry-0-children-not-visited", "accepted:1;20/0/1/0/0/0/0:/0/0/0", changed(PAIR, at(8 + 10, u16(0))))

say("The fields may stand in any order, and parts may overlap.")
single("fields-in-another-order", "accepted:1;24/0/1/0/7/99/72:b1b2/0/0/56:1:2", lay(
    at(0, u32(24)),
    at(4, vtable(24, 16, 12, 8, 4)),
    at(24, i32(20), u32(52 - 28), u32(64 - 32), u32(68 - 36), u64(99), u16(7)),
    at(52, u32(2), u32(1, 2)),
    at(64, u32(0)),
    at(68, u32(2), b"\xb1\xb2")))
single(
    "metadata-and-segments-are-one-vector",
    "accepted:1;24/0/1/0/513/1234567/56:a1a2a3/0/0/56:10724001:0:2",
    changed(EVERY, at(SEGMENTS, u16(16))))
say("The encoding is the upper half of the signed number with which the table begins.")
single("encoding-in-the-table-offset", "accepted:1;4/0/1/0/65535/0/0:/0/0/0", lay(at(0, u32(4)), at(4, i32(-4)), at(8, vtable(2))))

say("The encoding: at a multiple of 2, and two bytes inside.")
ENCODED = lay(at(0, u32(12)), at(4, vtable(4)), at(12, i32(8), u16(513)))
single("encoding-ends-the-bytes", "accepted:1;12/0/1/0/513/0/0:/0/0/0", ENCODED)
single("encoding-a-byte-short", "refused:8", ENCODED[:-1])
single("encoding-at-29", "refused:9", changed(EVERY, at(ENCODING, u16(5))))
single("encoding-at-the-end", "refused:8", changed(EVERY, at(ENCODING, u16(76 - 24))))
single("encoding-past-the-end-at-77", "refused:9", changed(EVERY, at(ENCODING, u16(77 - 24))))
single("encoding-entry-65534", "refused:8", changed(EVERY, at(ENCODING, u16(65534))))

say("The rows: at a multiple of 8, and eight bytes inside.")
ROWED = lay(at(0, u32(16)), at(4, vtable(0, 8)), at(16, i32(12)), at(24, u64(18446744073709551615)))
single("rows-end-the-bytes", "accepted:1;16/0/1/0/0/18446744073709551615/0:/0/0/0", ROWED)
single("rows-a-byte-short", "refused:8", ROWED[:-1])
single("rows-at-36", "refused:9", changed(EVERY, at(ROWS, u16(36 - 24))))
single("rows-four-bytes-short-at-72", "refused:8", changed(EVERY, at(ROWS, u16(72 - 24))))
single("rows-past-the-end-at-76", "refused:9", changed(EVERY, at(ROWS, u16(76 - 24))))

say("The metadata: an offset at a multiple of 4 and not 0, a count at a multiple of 4, and that many bytes inside.",
    "The four bytes at 59 are 0, but an offset there is refused for its place, which is checked first. Bytes of 0 are added at 76.")
single("metadata-offset-at-59", "refused:9", changed(EVERY, at(METADATA, u16(59 - 24))))
single("metadata-offset-a-byte-short", "refused:8", changed(EVERY, at(METADATA, u16(76 - 24))) + bytes(3))
single("metadata-offset-past-the-end-at-78", "refused:9", changed(EVERY, at(METADATA, u16(78 - 24))))
single("metadata-offset-0", "refused:10", changed(EVERY, at(METADATA, u16(76 - 24))) + u32(0))
single("metadata-count-at-53", "refused:9", changed(EVERY, at(TO_METADATA, u32(53 - 40))))
single("metadata-count-at-the-end", "refused:8", changed(EVERY, at(TO_METADATA, u32(76 - 40))))
single("metadata-count-past-the-end-at-78", "refused:9", changed(EVERY, at(TO_METADATA, u32(78 - 40))))
single(
    "metadata-up-to-the-end",
    "accepted:1;24/0/1/0/513/1234567/56:a1a2a300000000000200000007000000ffffffff/0/0/68:7:4294967295",
    changed(EVERY, at(METADATA_COUNT, u32(20))))
single("metadata-one-too-many", "refused:8", changed(EVERY, at(METADATA_COUNT, u32(21))))
single("metadata-count-4294967295", "refused:8", changed(EVERY, at(METADATA_COUNT, u32(4294967295))))

say("The children: likewise, with four bytes for each. Three fit, and the offset of the first then leads to 66.")
single("children-offset-at-59", "refused:9", changed(EVERY, at(CHILDREN, u16(59 - 24))))
single("children-offset-a-byte-short", "refused:8", changed(EVERY, at(CHILDREN, u16(76 - 24))) + bytes(3))
single("children-offset-past-the-end-at-78", "refused:9", changed(EVERY, at(CHILDREN, u16(78 - 24))))
single("children-offset-0", "refused:10", changed(EVERY, at(CHILDREN, u16(76 - 24))) + u32(0))
single("children-count-at-62", "refused:9", changed(EVERY, at(TO_CHILDREN, u32(62 - 44))))
single("children-count-at-the-end", "refused:8", changed(EVERY, at(TO_CHILDREN, u32(76 - 44))))
single("children-count-past-the-end-at-78", "refused:9", changed(EVERY, at(TO_CHILDREN, u32(78 - 44))))
single("children-up-to-the-end", "refused:9", changed(EVERY, at(CHILDREN_COUNT, u32(3))))
single("children-a-byte-short", "refused:8", changed(EVERY, at(TO_CHILDREN, u32(64 - 44)))[:-1])
single("children-one-too-many", "refused:8", changed(EVERY, at(CHILDREN_COUNT, u32(4))))
single("children-count-4294967295", "refused:8", changed(EVERY, at(CHILDREN_COUNT, u32(4294967295))))

say("The segments: likewise. The two of the table with every field end at the last byte.")
single("segments-offset-at-59", "refused:9", changed(EVERY, at(SEGMENTS, u16(59 - 24))))
single("segments-offset-a-byte-short", "refused:8", changed(EVERY, at(SEGMENTS, u16(76 - 24))) + bytes(3))
single("segments-offset-past-the-end-at-78", "refused:9", changed(EVERY, at(SEGMENTS, u16(78 - 24))))
single("segments-offset-0", "refused:10", changed(EVERY, at(SEGMENTS, u16(76 - 24))) + u32(0))
single("segments-count-at-65", "refused:9", changed(EVERY, at(TO_SEGMENTS, u32(65 - 48))))
single("segments-count-at-the-end", "refused:8", changed(EVERY, at(TO_SEGMENTS, u32(76 - 48))))
single("segments-count-past-the-end-at-78", "refused:9", changed(EVERY, at(TO_SEGMENTS, u32(78 - 48))))
single("segments-a-byte-short", "refused:8", EVERY[:-1])
single("segments-one-too-many", "refused:8", changed(EVERY, at(SEGMENTS_COUNT, u32(3))))
single("segments-count-4294967295", "refused:8", changed(EVERY, at(SEGMENTS_COUNT, u32(4294967295))))

say("Sums past 32 bits are past the end. If they were cut to 32 bits, each offset would lead to 36, where four bytes of 0 could be",
    "read as a count, and the elements would end at 0 or where they begin.")
single("metadata-offset-past-32-bits", "refused:8", changed(EVERY, at(TO_METADATA, u32(4294967296 + 36 - 40))))
single("children-offset-past-32-bits", "refused:8", changed(EVERY, at(TO_CHILDREN, u32(4294967296 + 36 - 44))))
single("segments-offset-past-32-bits", "refused:8", changed(EVERY, at(TO_SEGMENTS, u32(4294967296 + 36 - 48))))
single("metadata-end-past-32-bits", "refused:8", changed(EVERY, at(METADATA_COUNT, u32(4294967296 - 56))))
single("children-end-past-32-bits", "refused:8", changed(EVERY, at(CHILDREN_COUNT, u32(4294967296 // 4))))
single("segments-end-past-32-bits", "refused:8", changed(EVERY, at(SEGMENTS_COUNT, u32(4294967296 // 4))))

say("Vectors that are present and empty: a count of 0 that ends the bytes, and what is left of it with one byte less.")
single("metadata-count-a-byte-short", "refused:8", changed(EVERY, at(TO_METADATA, u32(76 - 40))) + bytes(3))
single("children-count-a-byte-short", "refused:8", changed(EVERY, at(TO_CHILDREN, u32(76 - 44))) + bytes(3))
single("segments-count-a-byte-short", "refused:8", changed(EVERY, at(TO_SEGMENTS, u32(76 - 48))) + bytes(3))
single(
    "all-vectors-empty",
    "accepted:1;24/0/1/0/513/1234567/80:/0/0/80",
    changed(EVERY, at(TO_METADATA, u32(76 - 40, 76 - 44, 76 - 48))) + u32(0))

say("Of two faults in a table, the answer is that of the field which is checked first.")
single("encoding-9-before-rows-8", "refused:9", changed(EVERY, at(ENCODING, u16(5)), at(ROWS, u16(80 - 24))))
single("encoding-8-before-rows-9", "refused:8", changed(EVERY, at(ENCODING, u16(76 - 24)), at(ROWS, u16(36 - 24))))
single("rows-9-before-metadata-10", "refused:9", changed(EVERY, at(ROWS, u16(36 - 24)), at(TO_METADATA, u32(0))))
single("metadata-10-before-children-9", "refused:10", changed(EVERY, at(TO_METADATA, u32(0)), at(CHILDREN, u16(59 - 24))))
single("children-8-before-segments-10", "refused:8", changed(EVERY, at(CHILDREN_COUNT, u32(4)), at(TO_SEGMENTS, u32(0))))
single("vtable-10-before-encoding-9", "refused:10", changed(EVERY, at(4, u16(13)), at(ENCODING, u16(5))))

say("Trees: the number of a table is its place in the order of visiting, each child's tables together.")
case("one-child", 2, 2, 3, PAIR_ACCEPTED, PAIR)
case("two-children", 2, 3, 4, "accepted:3;20/0/1/0/0/0/0:/2/2/0;40/0/2/0/0/0/0:/0/0/0;44/0/2/1/0/0/0:/0/0/0", lay(
    *TREE, at(20, i32(12), u32(4)), at(28, u32(2), u32(40 - 32), u32(44 - 36)), at(40, i32(36)), at(44, i32(40))))
case("second-child-stands-first", 2, 3, 4, "accepted:3;20/0/1/0/0/0/0:/2/2/0;44/0/2/0/0/0/0:/0/0/0;40/0/2/1/0/0/0:/0/0/0", lay(
    *TREE, at(20, i32(12), u32(4)), at(28, u32(2), u32(44 - 32), u32(40 - 36)), at(40, i32(36)), at(44, i32(40))))
case("vtable-shared-by-all", 2, 3, 4, THREE_ACCEPTED, THREE)
SIX = lay(
    *TREE,
    at(20, i32(12), u32(4)), at(28, u32(2), u32(40 - 32), u32(60 - 36)),
    at(40, i32(32), u32(4)), at(48, u32(2), u32(76 - 52), u32(80 - 56)),
    at(60, i32(52), u32(4)), at(68, u32(1), u32(84 - 72)),
    at(76, i32(72)), at(80, i32(76)), at(84, i32(80)))
SIX_ACCEPTED = (
    "accepted:6;20/0/1/0/0/0/0:/2/5/0"
    ";40/0/2/0/0/0/0:/2/2/0;76/1/3/0/0/0/0:/0/0/0;80/1/3/1/0/0/0:/0/0/0"
    ";60/0/2/1/0/0/0:/1/1/0;84/4/3/0/0/0/0:/0/0/0")
case("six-tables-on-three-levels", 3, 6, 7, SIX_ACCEPTED, SIX)
case("every-field-of-parent-and-child", 2, 2, 3, "accepted:2;24/0/1/0/1/2/56:11/1/1/104:5;72/0/2/0/3/4/112:1213/0/0/124:6", lay(
    at(0, u32(24)),
    at(4, vtable(4, 8, 16, 20, 24)),
    at(24, i32(20), u16(1), u16(0), u64(2)), at(40, u32(52 - 40), u32(60 - 44), u32(100 - 48)),
    at(52, u32(1), b"\x11"),
    at(60, u32(1), u32(72 - 64)),
    at(72, i32(68), u16(3), u16(0), u64(4)), at(88, u32(108 - 88), u32(116 - 92), u32(120 - 96)),
    at(100, u32(1), u32(5)),
    at(108, u32(2), b"\x12\x13"),
    at(116, u32(0)),
    at(120, u32(1), u32(6))))

say("A table that is reached along two ways is visited twice, and counts twice.")
case("one-table-is-both-children", 2, 3, 4, "accepted:3;20/0/1/0/0/0/0:/2/2/0;40/0/2/0/0/0/0:/0/0/0;40/0/2/1/0/0/0:/0/0/0",
     two_children_each(2))
TWO_PARENTS = lay(
    *TREE,
    at(20, i32(12), u32(4)), at(28, u32(2), u32(40 - 32), u32(56 - 36)),
    at(40, i32(32), u32(4)), at(48, u32(1), u32(72 - 52)),
    at(56, i32(48), u32(4)), at(64, u32(1), u32(72 - 68)),
    at(72, i32(68)))
TWO_PARENTS_ACCEPTED = (
    "accepted:5;20/0/1/0/0/0/0:/2/4/0"
    ";40/0/2/0/0/0/0:/1/1/0;72/1/3/0/0/0/0:/0/0/0"
    ";56/0/2/1/0/0/0:/1/1/0;72/3/3/0/0/0/0:/0/0/0")
case("child-of-two-parents", 3, 5, 6, TWO_PARENTS_ACCEPTED, TWO_PARENTS)
case("child-of-two-parents-four-tables", 3, 4, 6, "refused:12", TWO_PARENTS)
case("two-parents-share-their-vector", 3, 5, 6, TWO_PARENTS_ACCEPTED, changed(TWO_PARENTS, at(44, u32(64 - 44))))
TWO_DEPTHS = lay(
    *TREE,
    at(20, i32(12), u32(4)), at(28, u32(2), u32(40 - 32), u32(56 - 36)),
    at(40, i32(32), u32(4)), at(48, u32(1), u32(56 - 52)),
    at(56, i32(52)))
TWO_DEPTHS_ACCEPTED = (
    "accepted:4;20/0/1/0/0/0/0:/2/3/0"
    ";40/0/2/0/0/0/0:/1/1/0;56/1/3/0/0/0/0:/0/0/0"
    ";56/0/2/1/0/0/0:/0/0/0")
case("grandchild-is-child-too", 3, 4, 5, TWO_DEPTHS_ACCEPTED, TWO_DEPTHS)
case("grandchild-is-child-too-two-levels", 2, 4, 5, "refused:11", TWO_DEPTHS)
say("Three levels, where each table has the next one as its child twice: exactly enough tables and records, and one fewer.")
SEVEN_ACCEPTED = (
    "accepted:7;20/0/1/0/0/0/0:/2/6/0"
    ";40/0/2/0/0/0/0:/2/2/0;60/1/3/0/0/0/0:/0/0/0;60/1/3/1/0/0/0:/0/0/0"
    ";40/0/2/1/0/0/0:/2/2/0;60/4/3/0/0/0/0:/0/0/0;60/4/3/1/0/0/0:/0/0/0")
case("two-children-each-3-levels", 3, 7, 7, SEVEN_ACCEPTED, two_children_each(3))
case("two-children-each-6-tables-of-7", 3, 6, 7, "refused:12", two_children_each(3))
case("two-children-each-6-records-of-7", 3, 7, 6, "refused:13", two_children_each(3))

say("A table cannot stand below itself, since all offsets lead forward. This offset would lead to the parent if the sum were cut",
    "to 32 bits, and is past the end.")
case("child-offset-to-its-parent-in-32-bits", 64, 4096, 4096, "refused:8", changed(PAIR, at(32, u32(4294967296 - 12))))

say("The offset of a child: it is not 0, and leads to a multiple of 4 with four bytes inside.")
case("child-offset-0", 2, 2, 3, "refused:10", changed(PAIR, at(32, u32(0))))
case("child-at-37", 2, 2, 3, "refused:9", changed(PAIR, at(32, u32(37 - 32))))
case("child-at-the-end", 2, 2, 3, "refused:8", changed(PAIR, at(32, u32(40 - 32))))
case("child-a-byte-short", 2, 2, 3, "refused:8", PAIR[:-1])
case("child-vtable-at-3", 2, 2, 3, "refused:9", changed(PAIR, at(36, i32(33))))
case("child-vtable-size-0", 2, 2, 3, "refused:10", changed(PAIR, at(36, i32(0))))

say("The limit of levels is checked first, then that of tables, then the records: exactly enough, and one fewer of each.")
case("enough-of-all", 2, 2, 2, PAIR_ACCEPTED, PAIR)
case("no-record", 1, 1, 0, "refused:13", ALONE)
case("too-few-levels-tables-records", 1, 1, 1, "refused:11", PAIR)
case("too-few-tables-records", 2, 1, 1, "refused:12", PAIR)
case("too-few-levels", 1, 2, 2, "refused:11", PAIR)
case("too-few-tables", 2, 1, 2, "refused:12", PAIR)
case("too-few-records", 2, 2, 1, "refused:13", PAIR)
say("They are checked after the offset and the vtable of a child, and before its fields.")
case("child-offset-0-before-levels", 1, 1, 1, "refused:10", changed(PAIR, at(32, u32(0))))
case("child-vtable-9-before-levels", 1, 1, 1, "refused:9", changed(PAIR, at(36, i32(33))))
case("child-vtable-10-before-records", 2, 2, 1, "refused:10", changed(PAIR, at(36, i32(0))))
case("levels-before-child-segments-10", 1, 3, 3, "refused:11", changed(THREE, at(FIRST_SEGMENTS, u32(0))))
case("tables-before-child-segments-10", 2, 1, 3, "refused:12", changed(THREE, at(FIRST_SEGMENTS, u32(0))))
case("records-before-child-segments-10", 2, 3, 1, "refused:13", changed(THREE, at(FIRST_SEGMENTS, u32(0))))
case("vtable-10-before-no-record", 1, 1, 0, "refused:10", changed(EVERY, at(4, u16(13))))
case("no-record-before-encoding-9", 1, 1, 0, "refused:13", changed(EVERY, at(ENCODING, u16(5))))

say("A child is checked with all below it before the offset of the next child is read, and segments after all children.")
case("first-child-9", 2, 3, 4, "refused:9", changed(THREE, at(FIRST, i32(45))))
case("second-child-offset-0", 2, 3, 4, "refused:10", changed(THREE, at(TO_SECOND, u32(0))))
case("first-child-9-before-second-offset-0", 2, 3, 4, "refused:9", changed(THREE, at(FIRST, i32(45)), at(TO_SECOND, u32(0))))
case("first-child-segments-10-before-second-child-9", 2, 3, 4, "refused:10",
     changed(THREE, at(FIRST_SEGMENTS, u32(0)), at(TO_SECOND, u32(61 - 40))))
case("root-segments-10", 2, 3, 4, "refused:10", changed(THREE, at(ROOT_SEGMENTS, u32(0))))
case("second-child-9-before-root-segments-10", 2, 3, 4, "refused:9",
     changed(THREE, at(TO_SECOND, u32(61 - 40)), at(ROOT_SEGMENTS, u32(0))))
case("second-child-segments-8-before-root-segments-10", 2, 3, 4, "refused:8",
     changed(THREE, at(SECOND_SEGMENTS, u32(84 - 68)), at(ROOT_SEGMENTS, u32(0))))
case("tables-before-root-segments-10", 2, 2, 4, "refused:12", changed(THREE, at(ROOT_SEGMENTS, u32(0))))
case("grandchild-10-before-second-child-9", 3, 6, 6, "refused:10", changed(TWO_PARENTS, at(52, u32(0)), at(36, u32(57 - 36))))

say("A table on each of 64 levels, exactly and one level more. Table n stands at 20 and 16 times n.")
EACH = "".join(f";{20 + 16 * n}/{max(n - 1, 0)}/{n + 1}/0/0/0/0:/1/{63 - n}/0" for n in range(63))
case("one-child-each-64-levels", 64, 64, 65, "accepted:64" + EACH + ";1028/62/64/0/0/0/0:/0/0/0", one_child_each(64))
case("one-child-each-64-levels-of-63", 63, 64, 65, "refused:11", one_child_each(64))
case("one-child-each-65-levels", 64, 4096, 4096, "refused:11", one_child_each(65))

say("Thousands of tables in few bytes. Where each table has the next one as its child twice, 12 levels have 4,095 tables.",
    "With 64 levels, the limit of tables is reached first, and with 65 levels, that of levels, by the first child of each table.")
case("two-children-each-12-levels", 12, 4096, 4096, "accepted:4095", two_children_each(12))
case("two-children-each-64-levels", 64, 4096, 4096, "refused:12", two_children_each(64))
case("two-children-each-65-levels", 64, 4096, 4096, "refused:11", two_children_each(65))
say("Three children of 1,365 tables each make 4,096 with the root, and four children of 1,024 make 4,097.")
case("tables-4096", 7, 4096, 4096, "accepted:4096", levels_of(3, 4, 4, 4, 4, 4))
case("tables-4096-a-record-too-few", 7, 4096, 4095, "refused:13", levels_of(3, 4, 4, 4, 4, 4))
case("tables-4097-of-4096", 7, 4096, 4097, "refused:12", levels_of(4, 3, 4, 4, 4, 4))

(HERE / "stdin").write_text("".join(line + "\n" for line in LINES))
(HERE / "stdout").write_text("".join(f"{name}: as expected\n" for name in NAMES) + f"{len(NAMES)} cases, 0 differ\n")
