#!/usr/bin/env python3
"""Writes the sample maps of this folder and a sample file of body sizes. Run it in any folder: the files go beside this script.

smallest.bsp  the 193-byte map of document 01: one zero entity byte at 124, a zero texture count at
              125, one all-zero model at 129, every other section empty at offset 0.
rooms.bsp     two rooms with a doorway between them, water in the western room and a ramp in the
              eastern one (model 0), and a door that fills the doorway (model 1). The walls are at
              x = -128 and 128, y = -128 and 128, z = -64 and 64; the wall between the rooms is 16
              thick, the doorway 64 wide. The water is 32 deep. The ramp begins at x = 48 and rises
              3 for every 4.
yard.bsp      a yard under the open sky. The walls are at x = -128 and 128, y = -128 and 128, the floor
              at z = -64. The sky begins at z = 64 and ends at z = 256; beyond it is solid.
hall.sizes    the body sizes of a hall with larger figures: two fields, tag 1 for hull 1 and tag 2 for
              hull 2, each with a length of 24 and six floats, mins and then maxs.
"""
import os
import struct

VERSION = 29
SECTIONS = ["entities", "planes", "textures", "vertices", "visibility", "render nodes", "texture info", "faces",
            "lightmaps", "clip nodes", "leaves", "face list", "edges", "edge list", "models"]
HEADER = 4 + 8 * len(SECTIONS)

# contents codes; a file stores them negated
EMPTY, SOLID, WATER, SKY = 1, 2, 3, 6

# mins and maxs of what moves in the hulls 1 and 2
SIZES = [([-16, -16, -24], [16, 16, 32]), ([-32, -32, -24], [32, 32, 64])]


def bsp(parts):
    """A BSP29 file: the header, then the given sections in file order without gaps."""
    table, body = b"", b""
    for name in SECTIONS:
        data = parts.get(name)
        if data is None:
            table += struct.pack("<ii", 0, 0)
        else:
            table += struct.pack("<ii", HEADER + len(body), len(data))
            body += data
    return struct.pack("<i", VERSION) + table + body


def smallest():
    return bsp({"entities": b"\0", "textures": struct.pack("<i", 0), "models": bytes(64)})


class Planes:
    """The plane table: each plane once. Types 0 to 2 are the axes, 3 is a plane that leans along x."""

    def __init__(self):
        self.rows = []

    def number(self, normal, dist):
        axes = [(1.0, 0.0, 0.0), (0.0, 1.0, 0.0), (0.0, 0.0, 1.0)]
        row = struct.pack("<4fi", *normal, dist, axes.index(normal) if normal in axes else 3)
        if row not in self.rows:
            self.rows.append(row)
        return self.rows.index(row)

    def axis(self, name, dist):
        return self.number(tuple(1.0 if name == axis else 0.0 for axis in "xyz"), float(dist))


class Nodes:
    """A node table: `add` takes a tree (plane, front, back), whose ends are numbers below 0."""

    def __init__(self, record):
        self.rows = []
        self.record = record

    def add(self, tree):
        if isinstance(tree, int):
            return tree
        plane, front, back = tree
        at = len(self.rows)
        self.rows.append(None)
        self.rows[at] = self.record(plane, self.add(front), self.add(back))
        return at


def inside(planes, mins, maxs, within, outside):
    """The tree of a box: `within` it, and `outside` beyond each of its six sides."""
    for axis, low, high in reversed(list(zip("xyz", mins, maxs))):
        within = (planes.axis(axis, high), outside, (planes.axis(axis, low), within, outside))
    return within


def world(planes, mins, maxs, end):
    """The two rooms for something of a size: every wall is moved by it. `end` gives the ends by name."""
    # the ramp is moved by the corner that meets it first
    east = (planes.number((-0.6, 0.0, 0.8), -80.0 + 0.6 * maxs[0] - 0.8 * mins[2]), end["east"], end["solid"])
    west, doorway = end["west"], end["solid"]
    if end["water"] != end["west"]:
        west = (planes.axis("z", -32), end["west"], end["water"])
    width = 32 + mins[1]
    if width > 0:
        doorway = (planes.axis("y", width), end["solid"], (planes.axis("y", -width), end["door"], end["solid"]))
    within = (planes.axis("x", 8 - mins[0]), east, (planes.axis("x", -8 - maxs[0]), doorway, west))
    low = [-128 - mins[0], -128 - mins[1], -64 - mins[2]]
    high = [128 - maxs[0], 128 - maxs[1], 64 - maxs[2]]
    return inside(planes, low, high, within, end["solid"])


def door(planes, mins, maxs, end):
    """The door for something of a size."""
    low = [-8 - maxs[0], -32 - maxs[1], -64 - maxs[2]]
    high = [8 - mins[0], 32 - mins[1], 64 - mins[2]]
    return inside(planes, low, high, end["solid"], end["empty"])


def leaf(contents, row, mins, maxs, faces, sounds=(0, 0, 0, 0)):
    """A leaf; `faces` is its first entry of the face list and their number."""
    return struct.pack("<ii6hHH4B", -contents, row, *mins, *maxs, *faces, *sounds)


def quad(first):
    """Four edges around the vertices from `first` on, the last one walked backward."""
    a, b, c, d = range(first, first + 4)
    return [(a, b), (b, c), (c, d), (a, d)]


def trees():
    """Planes, render nodes and clip nodes of the world and the door, and the roots of their hulls."""
    planes = Planes()
    render = Nodes(lambda plane, front, back: struct.pack("<ihh6hHH", plane, front, back, -128, -128, -64, 128, 128, 64, 0, 2))
    clip = Nodes(lambda plane, front, back: struct.pack("<ihh", plane, front, back))
    # leaf n is the end -1 - n; leaf 0 is what is solid
    leaves = {"solid": -1, "west": -2, "water": -3, "door": -4, "east": -5, "empty": -6}
    codes = {name: -SOLID if name == "solid" else -EMPTY for name in leaves}
    roots = []
    for shape in [world, door]:
        point = render.add(shape(planes, [0, 0, 0], [0, 0, 0], leaves))
        roots.append([point] + [clip.add(shape(planes, *size, codes)) for size in SIZES])
    return planes, render, clip, roots


def leaf_sections():
    leaves = [
        leaf(SOLID, -1, (0, 0, 0), (0, 0, 0), (0, 0)),
        leaf(EMPTY, 0, (-128, -128, -32), (-8, 128, 64), (0, 0)),
        leaf(WATER, 1, (-128, -128, -64), (-8, 128, -32), (0, 1), (200, 10, 20, 30)),
        leaf(EMPTY, 2, (-8, -32, -64), (8, 32, 64), (1, 0)),
        leaf(EMPTY, 3, (8, -128, -64), (128, 128, 64), (1, 1)),
        leaf(EMPTY, -1, (-8, -32, -64), (8, 32, 64), (2, 0)),
    ]
    # one byte a row: leaf n is the bit n - 1
    return {"leaves": b"".join(leaves), "visibility": bytes([0b1111, 0b0011, 0b1111, 0b1101])}


def surface_sections(floor):
    """The floor of each room, seen from above; `floor` is its plane."""
    corners = []
    for low, high in [(-128, -8), (8, 48)]:
        corners += [(low, -128, -64), (low, 128, -64), (high, 128, -64), (high, -128, -64)]
    edges = [(0, 0)] + quad(0) + quad(4)
    # the second texture info is marked special
    infos = [(1, 0, 0, 4.5, 0, -1, 0, -2.25, 0, 0), (1, 0, 0, 0, 0, -1, 0, 0, 0, 1)]
    lights = [2, -1]
    return {
        # one texture, which is missing
        "textures": struct.pack("<ii", 1, -1),
        "vertices": b"".join(struct.pack("<3f", *corner) for corner in corners),
        "texture info": b"".join(struct.pack("<8fii", *info) for info in infos),
        "faces": b"".join(struct.pack("<hhihh4Bi", floor, 0, 4 * n, 4, n, 0, 1, 2, 255, lights[n]) for n in range(2)),
        "lightmaps": bytes(range(8)),
        "face list": struct.pack("<2H", 0, 1),
        "edges": b"".join(struct.pack("<2H", *edge) for edge in edges),
        "edge list": struct.pack("<8i", 1, 2, 3, -4, 5, 6, 7, -8),
    }


def model(mins, maxs, hulls, leaf_count, face, face_count):
    return struct.pack("<9f7i", *mins, *maxs, 0, 0, 0, *hulls, 0, leaf_count, face, face_count)


def rooms():
    planes, render, clip, roots = trees()
    surfaces = surface_sections(planes.axis("z", -64))
    return bsp({
        "entities": b'{\n"classname" "worldspawn"\n"message" "two rooms"\n}\n'
                    b'{\n"classname" "func_door"\n"model" "*1"\n}\n\0',
        "planes": b"".join(planes.rows),
        "render nodes": b"".join(render.rows),
        "clip nodes": b"".join(clip.rows),
        **leaf_sections(),
        **surfaces,
        "models": model((-128, -128, -64), (128, 128, 64), roots[0], 4, 0, 2)
                  + model((-8, -32, -64), (8, 32, 64), roots[1], 1, 2, 0),
    })


def open_air(planes, mins, maxs, end):
    """The yard for something of a size: walls and floor are moved by it, the sky is not."""
    low = [-128 - mins[0], -128 - mins[1], -64 - mins[2]]
    high = [128 - maxs[0], 128 - maxs[1], 256 - maxs[2]]
    return inside(planes, low, high, (planes.axis("z", 64), end["sky"], end["yard"]), end["solid"])


def yard():
    planes = Planes()
    render = Nodes(lambda plane, front, back: struct.pack("<ihh6hHH", plane, front, back, -128, -128, -64, 128, 128, 256, 0, 0))
    clip = Nodes(lambda plane, front, back: struct.pack("<ihh", plane, front, back))
    # leaf n is the end -1 - n; leaf 0 is what is solid
    roots = [render.add(open_air(planes, [0, 0, 0], [0, 0, 0], {"solid": -1, "yard": -2, "sky": -3}))]
    for size in SIZES:
        roots.append(clip.add(open_air(planes, *size, {"solid": -SOLID, "yard": -EMPTY, "sky": -SKY})))
    leaves = [
        leaf(SOLID, -1, (0, 0, 0), (0, 0, 0), (0, 0)),
        leaf(EMPTY, 0, (-128, -128, -64), (128, 128, 64), (0, 0)),
        leaf(SKY, 0, (-128, -128, 64), (128, 128, 256), (0, 0), (0, 200, 0, 0)),
    ]
    return bsp({
        "entities": b'{\n"classname" "worldspawn"\n"message" "a yard"\n}\n\0',
        "planes": b"".join(planes.rows),
        "textures": struct.pack("<i", 0),
        # one row for both leaves: each sees both
        "visibility": bytes([0b11]),
        "render nodes": b"".join(render.rows),
        "clip nodes": b"".join(clip.rows),
        "leaves": b"".join(leaves),
        "models": model((-128, -128, -64), (128, 128, 256), roots, 2, 0, 0),
    })


def field(tag, value):
    """A field of a file of body sizes: one byte of tag, two bytes of length, the value."""
    return struct.pack("<BH", tag, len(value)) + value


def hall_sizes():
    return b"".join(field(tag, struct.pack("<6f", *mins, *maxs)) for tag, mins, maxs in [
        (1, (-20, -20, -30), (20, 20, 40)),
        (2, (-40, -40, -30), (40, 40, 80.5)),
    ])


def main():
    here = os.path.dirname(os.path.abspath(__file__))
    for name, data in [
        ("smallest.bsp", smallest()),
        ("rooms.bsp", rooms()),
        ("yard.bsp", yard()),
        ("hall.sizes", hall_sizes()),
    ]:
        with open(os.path.join(here, name), "wb") as f:
            f.write(data)
        print(f"{name}: {len(data)} bytes")


if __name__ == "__main__":
    main()
