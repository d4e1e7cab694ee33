#!/usr/bin/env python3
"""Writes the maps of this folder beside this script: maps/rooms.bsp of the repository with one fault each.

loop.bsp     the last clip node of hull 1 leads back to its fourth one: a walk into it never ends
row.bsp      the last visibility row is a zero byte without its follower: it runs off the data
shared.bsp   two clip nodes of hull 1 have the same child
edge.bsp     an edge names a vertex that is not there
contents.bsp leaf 3 has contents -7: loading refuses it
cut.bsp      the file ends within its models: loading refuses it
textures.bsp a texture, an animated one with two frames and an alternate one, and an absent one; it passes
hostile.bsp  control characters, markup and an unclosed brace in the entity text; it passes
"""
import os
import struct

HERE = os.path.dirname(os.path.abspath(__file__))
ROOMS = open(os.path.join(HERE, "../../../../maps/rooms.bsp"), "rb").read()
ENTITIES, TEXTURES, VISIBILITY, CLIP_NODES, LEAVES, EDGES = 0, 2, 4, 9, 10, 12


def section(number):
    """Offset and size of a section of the rooms."""
    return struct.unpack_from("<ii", ROOMS, 4 + 8 * number)


def planted(at, data):
    """The rooms with other bytes at a position."""
    return ROOMS[:at] + data + ROOMS[at + len(data):]


def clip_child(node, side, child):
    return planted(section(CLIP_NODES)[0] + 8 * node + 4 + 2 * side, struct.pack("<h", child))


def hostile():
    at, size = section(ENTITIES)
    text = b'{"classname" "\x1b[31mworld\xc2\x9bspawn"\n"<b>" "a\xe2\x80\xaeb\\"\n} {"classname" '
    return planted(at, text + b" " * (size - 1 - len(text)) + b"\0")


def texture(name):
    """A texture of 16 by 16: its header and four pictures, each a quarter of the one before."""
    sizes = [256, 64, 16, 4]
    places = [40 + sum(sizes[:n]) for n in range(4)]
    return struct.pack("<16s6I", name, 16, 16, *places) + bytes(sum(sizes))


def textures():
    """The texture section lies at the end of the file."""
    present = [texture(name) for name in [b"Wall", b"+1lamp", b"+alamp", b"+0lamp"]]
    offsets = [4 + 4 * 5 + sum(map(len, present[:n])) for n in range(4)]
    data = struct.pack("<6i", 5, *offsets[:2], -1, *offsets[2:]) + b"".join(present)
    return planted(4 + 8 * TEXTURES, struct.pack("<ii", len(ROOMS), len(data))) + data


def main():
    rows, size = section(VISIBILITY)
    for name, data in [
        ("loop.bsp", clip_child(10, 0, 3)),
        ("row.bsp", planted(rows + size - 1, b"\0")),
        ("shared.bsp", clip_child(6, 0, 8)),
        ("edge.bsp", planted(section(EDGES)[0] + 4 * 3, struct.pack("<H", 8))),
        ("contents.bsp", planted(section(LEAVES)[0] + 28 * 3, struct.pack("<i", -7))),
        ("cut.bsp", ROOMS[:-30]),
        ("textures.bsp", textures()),
        ("hostile.bsp", hostile()),
    ]:
        with open(os.path.join(HERE, name), "wb") as f:
            f.write(data)
        print(f"{name}: {len(data)} bytes")


if __name__ == "__main__":
    main()
