#!/usr/bin/env python3
"""Write rays.json, the layout tree of a ray table, to standard output.

Usage:  python3 make_rays.py > rays.json

The tree is a chunked node with one child per scan. Each scan is a struct of
forty ray columns. The script uses only the standard library and no random
numbers, so every run writes the same bytes. Each table is on its own line.
"""

import sys

FLAT, CHUNKED, STRUCT, LIST, DICT = range(5)

# The rows of each scan.
SCANS = [4096, 4096, 1808]

# The rows of the pieces of the column "time_ns" in each scan.
TIME_PIECES = [[2048, 2048], [1024, 1024, 1024, 1024], [1024, 784]]

# Metadata of a flat node: protobuf field 1 with two bytes.
FLAT_METADATA = [10, 2, 1, 2]

# Metadata of a dict node: codes are u16, not nullable, all values referenced.
DICT_METADATA = [8, 1, 16, 0, 24, 1]

# Metadata of a list node: the number of the offsets' type.
OFFSETS_U32 = [8, 2]
OFFSETS_U64 = [8, 3]

# The forty columns in the order of the struct's children: name, type, and how
# the column is laid out. "flat" has no metadata, "flat+" has FLAT_METADATA.
# "dict:N" has N values. "list:N" has N elements per ray.
COLUMNS = [
    ("ray_id", "u64", "flat"),
    ("time_ns", "u64", "chunked"),
    ("lens_id", "u32", "dict:12"),
    ("surface_id", "u32", "dict:24"),
    ("wavelength_nm", "f32", "dict:7"),
    ("field_id", "u32", "dict:9"),
    ("field_x", "f32", "flat"),
    ("field_y", "f32", "flat"),
    ("pupil_x", "f32", "flat"),
    ("pupil_y", "f32", "flat"),
    ("origin_x", "f64", "flat"),
    ("origin_y", "f64", "flat"),
    ("origin_z", "f64", "flat"),
    ("direction_x", "f64", "flat"),
    ("direction_y", "f64", "flat"),
    ("direction_z", "f64", "flat"),
    ("hit_x", "f64", "flat+"),
    ("hit_y", "f64", "flat+"),
    ("hit_z", "f64", "flat+"),
    ("normal_x", "f64", "flat"),
    ("normal_y", "f64", "flat"),
    ("normal_z", "f64", "flat"),
    ("angle_in", "f32", "flat"),
    ("angle_out", "f32", "flat"),
    ("index_in", "f32", "flat"),
    ("index_out", "f32", "flat"),
    ("path_length", "f64", "flat+"),
    ("optical_path", "f64", "flat+"),
    ("wavefront_error", "f64", "flat+"),
    ("intensity_samples", "list of f32", "list:16"),
    ("surface_hits", "list of u16", "list:5"),
    ("transmission", "f32", "flat"),
    ("reflection", "f32", "flat"),
    ("polarization_s", "f32", "flat"),
    ("polarization_p", "f32", "flat"),
    ("image_x", "f64", "flat+"),
    ("image_y", "f64", "flat+"),
    ("defocus", "f32", "flat"),
    ("weight", "f32", "flat"),
    ("quality", "u8", "flat"),
]


class Segments:
    """Hands out segment ids 0, 1, 2, and so on."""

    def __init__(self):
        self.next_id = 0

    def take(self):
        self.next_id += 1
        return self.next_id - 1


def flat(segments, rows, metadata=None):
    return {"encoding": FLAT, "row_count": rows, "metadata": metadata,
            "segments": [segments.take()]}


def inner(encoding, rows, children, metadata=None):
    return {"encoding": encoding, "row_count": rows, "metadata": metadata,
            "children": children}


def column(segments, name, layout, scan):
    """Return the node of one column in one scan."""
    rows = SCANS[scan]
    kind, _, number = layout.partition(":")
    if kind == "flat":
        return flat(segments, rows)
    if kind == "flat+":
        return flat(segments, rows, FLAT_METADATA)
    if kind == "chunked":
        pieces = [flat(segments, piece) for piece in TIME_PIECES[scan]]
        return inner(CHUNKED, rows, pieces)
    if kind == "dict":
        values = flat(segments, int(number))
        codes = flat(segments, rows)
        return inner(DICT, rows, [values, codes], DICT_METADATA)
    if kind == "list":
        count = rows * int(number)
        if name == "intensity_samples" and scan == 0:
            # The elements of the first scan are chunked in two halves.
            halves = [flat(segments, count // 2) for _ in range(2)]
            elements = inner(CHUNKED, count, halves)
        else:
            elements = flat(segments, count)
        offsets = flat(segments, rows + 1)
        metadata = OFFSETS_U64 if name == "intensity_samples" else OFFSETS_U32
        return inner(LIST, rows, [elements, offsets], metadata)
    raise ValueError("unknown layout " + layout)


def rays():
    """Return the root node of the whole tree."""
    segments = Segments()
    scans = []
    for scan, rows in enumerate(SCANS):
        fields = [column(segments, name, layout, scan)
                  for name, _, layout in COLUMNS]
        scans.append(inner(STRUCT, rows, fields))
    return inner(CHUNKED, sum(SCANS), scans)


def text(node, depth=0):
    """Return the JSON text of a node with one table per line."""
    parts = ['"encoding": %d' % node["encoding"],
             '"row_count": %d' % node["row_count"]]
    if node.get("metadata"):
        parts.append('"metadata": %s' % node["metadata"])
    if node.get("children"):
        indent = "\n" + "  " * (depth + 1)
        lines = [text(child, depth + 1) for child in node["children"]]
        parts.append('"children": [' + indent + ("," + indent).join(lines) + "]")
    if node.get("segments"):
        parts.append('"segments": %s' % node["segments"])
    return "{" + ", ".join(parts) + "}"


if __name__ == "__main__":
    assert len(COLUMNS) == 40
    sys.stdout.write(text(rays()) + "\n")
