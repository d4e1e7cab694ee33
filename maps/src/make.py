#!/usr/bin/env python3
"""Writes the sources of the compiled maps: six .map files and the texture file plain.wad.

    python3 maps/src/make.py          # all but nave.map, beside this script
    python3 maps/src/make.py FOLDER   # all of them, there

corridors.map  rooms and corridors on two storeys, with pillars, doorways and stairs.
vaults.map     slopes and curves: a round gallery that climbs, a vaulted hall, a tower under a cone, ramps.
pools.map      water, slime and lava in basins, a flooded passage, a waterfall, a bridge.
lock.map       a door of two leaves, a lift, a button, a wall and triggers as brush models, and a pool.
court.map      a court under the open sky, on uneven ground, with towers and a gate.
nave.map       a hall with so much detail that its clip nodes and planes are near what a file may have. It has
               some ten thousand lines, and is written where a folder is named.
plain.wad      the textures: patterns of stripes, bricks and dots. Animated ones of both groups (+0lamp, +alamp
               and others), liquids (*water, *slime, *lava, *gate) and sky.

Nothing here was taken from another map or texture file. `oracle/run real` compiles them.
"""
import math
import os
import struct
import sys


class Draw:
    """Numbers from a seed, the same on every machine."""

    def __init__(self, seed):
        self.state = seed

    def below(self, count):
        self.state = (self.state * 6364136223846793005 + 1442695040888963407) % 2**64
        return (self.state >> 33) % count

    def between(self, low, high, step=1):
        return low + step * self.below((high - low) // step + 1)


# Brushes


def cross(a, b):
    return (a[1] * b[2] - a[2] * b[1], a[2] * b[0] - a[0] * b[2], a[0] * b[1] - a[1] * b[0])


def less(a, b):
    return tuple(x - y for x, y in zip(a, b))


def dot(a, b):
    return sum(x * y for x, y in zip(a, b))


class Brush:
    """A convex solid: each side is three points of its plane and a texture, turned away from the middle."""

    def __init__(self, middle):
        self.middle = middle
        self.sides = []

    def side(self, points, texture):
        p, q, r = points
        if dot(cross(less(p, q), less(r, q)), less(self.middle, q)) > 0:
            p, r = r, p
        self.sides.append((p, q, r, texture))
        return self

    def text(self):
        lines = ["{"]
        for p, q, r, texture in self.sides:
            points = " ".join("( %d %d %d )" % point for point in (p, q, r))
            lines.append("%s %s 0 0 0 1 1" % (points, texture))
        return "\n".join(lines + ["}"])


class Look:
    """The textures of a brush: floors look up, ceilings look down."""

    def __init__(self, wall, floor=None, ceiling=None):
        self.wall = wall
        self.floor = floor or wall
        self.ceiling = ceiling or wall


def look(textures):
    return textures if isinstance(textures, Look) else Look(textures)


def box(low, high, textures):
    """An axis-aligned box."""
    textures = look(textures)
    brush = Brush(tuple((a + b) / 2 for a, b in zip(low, high)))
    for axis in range(3):
        others = [(axis + 1) % 3, (axis + 2) % 3]
        for at in (low[axis], high[axis]):
            points = []
            for u, v in ((low, low), (low, high), (high, low)):
                point = [0, 0, 0]
                point[axis], point[others[0]], point[others[1]] = at, u[others[0]], v[others[1]]
                points.append(tuple(point))
            texture = textures.wall
            if axis == 2:
                texture = textures.floor if at == high[2] else textures.ceiling
            brush.side(points, texture)
    return brush


def prism(outline, axis, low, high, textures):
    """A convex outline in the plane across an axis, from low to high along it."""
    textures = look(textures)

    def put(point, at):
        point = list(point)
        point.insert(axis, at)
        return tuple(point)

    count = len(outline)
    middle = tuple(sum(point[i] for point in outline) / count for i in range(2))
    brush = Brush(put(middle, (low + high) / 2))
    caps = (textures.ceiling, textures.floor) if axis == 2 else (textures.wall, textures.wall)
    for at, texture in ((low, caps[0]), (high, caps[1])):
        brush.side([put(outline[i], at) for i in (0, 1, 2)], texture)
    for i in range(count):
        a, b = outline[i], outline[(i + 1) % count]
        brush.side([put(a, low), put(b, low), put(a, high)], textures.wall)
    return brush


def column(corners, bottom, tops, textures):
    """A triangle on a level bottom, whose three corners rise to heights of their own."""
    textures = look(textures)
    middle = tuple(sum(c[i] for c in corners) / 3 for i in range(2)) + ((bottom + min(tops)) / 2,)
    brush = Brush(middle)
    brush.side([c + (bottom,) for c in corners], textures.ceiling)
    brush.side([c + (top,) for c, top in zip(corners, tops)], textures.floor)
    for i in range(3):
        a, b = corners[i], corners[(i + 1) % 3]
        brush.side([a + (bottom,), b + (bottom,), a + (bottom + 64,)], textures.wall)
    return brush


def hanging(corners, top, bottoms, textures):
    """The same hanging from a level top."""
    textures = look(textures)
    middle = tuple(sum(c[i] for c in corners) / 3 for i in range(2)) + ((top + max(bottoms)) / 2,)
    brush = Brush(middle)
    brush.side([c + (top,) for c in corners], textures.floor)
    brush.side([c + (low,) for c, low in zip(corners, bottoms)], textures.ceiling)
    for i in range(3):
        a, b = corners[i], corners[(i + 1) % 3]
        brush.side([a + (top,), b + (top,), a + (top - 64,)], textures.wall)
    return brush


def pyramid(low, high, peak, textures):
    """Four slopes from the edges of a box's bottom to a peak."""
    textures = look(textures)
    corners = [(low[0], low[1]), (high[0], low[1]), (high[0], high[1]), (low[0], high[1])]
    brush = Brush(((low[0] + high[0]) / 2, (low[1] + high[1]) / 2, low[2] + (peak[2] - low[2]) / 4))
    brush.side([c + (low[2],) for c in corners[:3]], textures.ceiling)
    for i in range(4):
        brush.side([corners[i] + (low[2],), corners[(i + 1) % 4] + (low[2],), peak], textures.wall)
    return brush


def around(middle, radius, step, steps):
    """A corner of a regular outline, at whole numbers."""
    angle = 2 * math.pi * step / steps
    return (middle[0] + round(radius * math.cos(angle)), middle[1] + round(radius * math.sin(angle)))


def shell(rooms, wall, textures):
    """Walls of that thickness around boxes that are left empty; boxes that meet are joined."""
    cuts = []
    for axis in range(3):
        at = set()
        for low, high in rooms:
            at |= {low[axis] - wall, low[axis], high[axis], high[axis] + wall}
        cuts.append(sorted(at))

    def cells(low, high):
        ranges = [range(cuts[i].index(low[i]), cuts[i].index(high[i])) for i in range(3)]
        return {(x, y, z) for x in ranges[0] for y in ranges[1] for z in ranges[2]}

    empty, solid = set(), set()
    for low, high in rooms:
        empty |= cells(low, high)
        solid |= cells([a - wall for a in low], [a + wall for a in high])
    solid -= empty
    brushes = []
    for cell in sorted(solid):
        if cell not in solid:
            continue
        end = [a + 1 for a in cell]
        for axis in range(3):
            while True:
                low = [end[i] if i == axis else cell[i] for i in range(3)]
                high = [end[i] + 1 if i == axis else end[i] for i in range(3)]
                more = {(x, y, z) for x in range(low[0], high[0]) for y in range(low[1], high[1])
                        for z in range(low[2], high[2])}
                if not more <= solid:
                    break
                end[axis] += 1
        solid -= {(x, y, z) for x in range(cell[0], end[0]) for y in range(cell[1], end[1])
                  for z in range(cell[2], end[2])}
        brushes.append(box([cuts[i][cell[i]] for i in range(3)], [cuts[i][end[i]] for i in range(3)], textures))
    return brushes


# Maps


class Map:
    """Entities in order; the first is the world, which has most brushes."""

    def __init__(self, message, **keys):
        self.entities = []
        self.world = []
        self.put("worldspawn", self.world, message=message, wad="plain.wad", **keys)

    def put(self, kind, brushes=(), **keys):
        self.entities.append((dict(classname=kind, **keys), brushes))

    def point(self, kind, at, **keys):
        self.put(kind, origin="%d %d %d" % tuple(at), **keys)

    def light(self, at, strength=250):
        self.point("light", at, light=str(strength))

    def start(self, at, angle=0):
        self.point("info_player_start", at, angle=str(angle))

    def text(self):
        lines = []
        for keys, brushes in self.entities:
            lines.append("{")
            lines += ['"%s" "%s"' % pair for pair in keys.items()]
            lines += [brush.text() for brush in brushes]
            lines.append("}")
        return "\n".join(lines) + "\n"


STONE = Look("brick", "tile", "plank")


def corridors():
    draw = Draw(1)
    map = Map("rooms and corridors")
    rooms, middles = [], {}
    for storey in range(2):
        for column_at in range(4):
            for row in range(3):
                wide, deep = draw.between(96, 208, 16), draw.between(96, 208, 16)
                x, y, z = column_at * 512, row * 512, storey * 288
                high = draw.between(128, 208, 16)
                rooms.append(((x - wide, y - deep, z), (x + wide, y + deep, z + high)))
                middles[storey, column_at, row] = (x, y, z)
                for side in ((-1, -1), (1, -1), (1, 1), (-1, 1)):
                    if wide >= 160 and deep >= 160:
                        at = (x + side[0] * (wide - 64), y + side[1] * (deep - 64))
                        map.world.append(box((at[0] - 12, at[1] - 12, z), (at[0] + 12, at[1] + 12, z + high), "brick"))
                map.light((x, y, z + high - 24), 300)
    for (storey, column_at, row), (x, y, z) in middles.items():
        half = 32 + 16 * draw.below(2)
        if column_at < 3 and (storey == 0 or draw.below(3)):
            rooms.append(((x, y - half, z), (x + 512, y + half, z + 112)))
            map.light((x + 256, y, z + 96), 150)
        if row < 2 and (storey == 0 or draw.below(3)):
            rooms.append(((x - half, y, z), (x + half, y + 512, z + 112)))
    # a shaft between the storeys, and stairs in it
    rooms.append(((1680, 416, 0), (1872, 608, 416)))
    for step in range(16):
        low, high = (1680 + 12 * step, 416, 0), (1692 + 12 * step, 480, 18 * (step + 1))
        map.world.append(box(low, high, Look("plank", "plate")))
    map.world[:0] = shell(rooms, 16, STONE)
    map.start((0, 0, 24), 90)
    for at in ((512, 512, 24), (1024, 0, 24), (1024, 1024, 24), (0, 1024, 312), (512, 0, 312)):
        map.point("info_player_deathmatch", at)
    # lamps whose texture moves, on the walls of the corridors
    for column_at in range(3):
        x = column_at * 512 + 240
        map.world.append(box((x, -28, 100), (x + 32, 28, 110), Look("plate", "plate", "+0lamp")))
    return map


def ring(map, middle, inner, outer, floor, rise, height, steps, textures):
    """A round gallery: each step of its floor and ceiling is two triangles, which climb."""
    for step in range(steps):
        a, b = around(middle, inner, step, steps), around(middle, inner, step + 1, steps)
        c, d = around(middle, outer, step, steps), around(middle, outer, step + 1, steps)
        low, next_low = floor + rise * step, floor + rise * (step + 1)
        for corners, heights in (((a, c, d), (low, low, next_low)), ((a, d, b), (low, next_low, next_low))):
            map.world.append(column(corners, floor - 64, heights, textures))
            map.world.append(hanging(corners, floor + rise * steps + height + 64,
                                     [h + height for h in heights], textures))
        top = floor + rise * steps + height + 64
        for near, far in ((inner - 32, inner), (outer, outer + 32)):
            outline = [around(middle, near, step, steps), around(middle, far, step, steps),
                       around(middle, far, step + 1, steps), around(middle, near, step + 1, steps)]
            # the gallery is open towards the hall at its first step and towards the tower half way round
            if far == outer + 32 and step == 0:
                map.world.append(prism(outline, 2, low + 96, top, textures))
            elif near == inner - 32 and step == steps // 2:
                map.world.append(prism(outline, 2, low + 144, top, textures))
                map.world.append(prism(outline, 2, floor - 64, next_low, textures))
            else:
                map.world.append(prism(outline, 2, floor - 64, top, textures))


def vault(map, low, high, steps, textures):
    """A round ceiling over a box: wedges between an arc and a level top."""
    middle, radius = (low[1] + high[1]) / 2, (high[1] - low[1]) / 2
    for step in range(steps):
        arc = []
        for part in (step, step + 1):
            angle = math.pi * part / steps
            arc.append((round(middle - radius * math.cos(angle)), round(high[2] + radius * math.sin(angle) * 0.75)))
        top = high[2] + round(radius * 0.75) + 32
        outline = [arc[0], arc[1], (arc[1][0], top), (arc[0][0], top)]
        map.world.append(prism(outline, 0, low[0], high[0], textures))


def vaults():
    draw = Draw(2)
    map = Map("slopes and curves")
    stone = Look("brick", "tile", "brick")
    middle, steps = (0, 0), 24
    ring(map, middle, 224, 352, 0, 6, 128, steps, stone)
    # the tower in the gallery's middle: a floor, a cone for a roof
    for step in range(steps):
        a, b = around(middle, 224, step, steps), around(middle, 224, step + 1, steps)
        map.world.append(prism([middle, a, b], 2, 40, 72, stone))
        map.world.append(hanging((middle, a, b), 520, (500, 320, 320), stone))
    for step in range(0, steps, 4):
        at = around(middle, 120, step, steps)
        map.world.append(prism([around(at, 16, corner, 8) for corner in range(8)], 2, 72, 368, "plate"))
    # the hall: level floor, walls, a vault of wedges, ramps along its sides
    low, high = (400, -192, 0), (1424, 192, 160)
    vault(map, low, high, 16, stone)
    map.world.append(box((384, -224, -32), (1440, 224, 0), stone))
    map.world.append(box((1424, -224, 0), (1440, 224, 352), stone))
    map.world.append(box((384, -224, 112), (400, 224, 352), stone))
    map.world.append(box((384, -224, 0), (400, 0, 112), stone))
    map.world.append(box((384, 96, 0), (400, 224, 112), stone))
    for y in (-224, 192):
        map.world.append(box((384, y, 0), (1440, y + 32, 352), stone))
    # from the gallery to the hall
    map.world.append(box((320, -8, -32), (400, 104, 0), stone))
    map.world.append(box((320, -24, -32), (400, -8, 128), stone))
    map.world.append(box((320, 96, -32), (400, 112, 128), stone))
    map.world.append(box((320, -24, 96), (400, 112, 128), stone))
    for at in range(480, 1400, 160):
        rise = draw.between(24, 72, 8)
        map.world.append(prism([(at, 0), (at + 96, 0), (at + 96, rise)], 1, -192, -128, "plank"))
        map.world.append(prism([(at, 0), (at + 96, 0), (at, rise)], 1, 128, 192, "plank"))
        map.world.append(pyramid((at + 24, -24, 0), (at + 72, 24, 0), (at + 48, 0, draw.between(24, 64, 8)), "plate"))
        map.light((at + 48, 0, 224))
    for step in range(0, steps, 3):
        at = around(middle, 288, step, steps)
        map.light(at + (6 * step + 96,), 200)
    map.light((0, 0, 300))
    map.start((600, 90, 40), 180)
    map.point("info_player_deathmatch", (0, 90, 110))
    # whatever is outside is closed off
    for brush in shell([((-448, -448, -96), (1504, 448, 592))], 16, stone):
        map.world.append(brush)
    return map


def pools():
    map = Map("water, slime and lava")
    rooms = [((-256, -256, 0), (256, 256, 192)), ((512, -256, 0), (1024, 256, 192)),
             ((1280, -256, 0), (1792, 256, 192)),
             ((256, -48, 0), (512, 48, 112)), ((1024, -48, 0), (1280, 48, 112)),
             # a basin in each room; a passage below the floor joins the first two
             ((-192, -192, -128), (192, 192, 0)), ((576, -192, -160), (960, 192, 0)),
             ((1344, -192, -96), (1728, 192, 0)),
             ((192, -40, -128), (576, 40, -48))]
    map.world.extend(shell(rooms, 16, STONE))
    map.world.append(box((-192, -192, -128), (192, 192, -16), "*water"))
    map.world.append(box((192, -40, -128), (576, 40, -48), "*water"))
    map.world.append(box((576, -192, -160), (960, 192, -24), "*slime"))
    map.world.append(box((1344, -192, -96), (1728, 192, -12), "*lava"))
    # a waterfall, and a sheet that leads elsewhere
    map.world.append(box((-256, -32, 0), (-240, 32, 160), "*water"))
    map.world.append(box((1776, -40, 0), (1784, 40, 96), "*gate"))
    # stones to step on, some under the surface
    draw = Draw(3)
    for x in range(-160, 192, 64):
        for y in range(-160, 192, 64):
            top = draw.between(-112, 8, 8)
            for left, bottom in ((x, -128), (x + 768, -160), (x + 1536, -96)):
                half = draw.between(6, 14, 2)
                if draw.below(3):
                    low, high = (left - half, y - half, bottom), (left + half, y + half, max(top, bottom + 16))
                    map.world.append(box(low, high, "plate"))
    # a bridge over the lava, with slopes at its ends
    map.world.append(box((1344, -24, 8), (1728, 24, 16), "plank"))
    for a, b in ((1296, 1344), (1776, 1728)):
        map.world.append(prism([(a, 0), (b, 0), (b, 16)], 1, -24, 24, "plank"))
    for x in (0, 768, 1536):
        for y in (-150, 150):
            map.light((x, y, 160))
            map.world.append(box((x - 16, y - 16, 184), (x + 16, y + 16, 192), Look("plate", "plate", "+0lamp")))
        map.light((x, 0, -32), 120)
    map.start((-224, -224, 24), 45)
    map.point("info_player_deathmatch", (1000, 0, 24))
    return map


def lock():
    map = Map("a door, a lift and a button")
    rooms = [((-192, -160, 0), (160, 160, 160)), ((176, -160, 0), (560, 160, 352)), ((160, -48, 0), (176, 48, 112)),
             # a landing above, and the pool below
             ((560, -160, 192), (752, 160, 352)), ((-160, -128, -72), (-64, 128, 0))]
    map.world.extend(shell(rooms, 16, STONE))
    map.world.append(box((-160, -128, -72), (-64, 128, -12), "*water"))
    map.world.append(prism([(-64, 0), (-16, 0), (-64, 32)], 1, 96, 160, "plank"))
    map.world.append(box((100, -160, 0), (124, -136, 160), "plate"))
    map.world.append(box((100, 136, 0), (124, 160, 160), "plate"))
    map.start((0, 0, 24), 0)
    map.point("info_player_deathmatch", (640, 0, 216), angle="180")
    map.light((0, 0, 140), 300)
    map.light((360, 0, 300), 300)
    map.light((656, 0, 320), 200)
    # the door: two leaves that slide apart
    for low, high, angle in ((-48, 0, 270), (0, 48, 90)):
        leaf = box((162, low, 0), (174, high, 112), "plate")
        map.put("func_door", [leaf], angle=str(angle), lip="4", targetname="leaves")
    # the lift to the landing, the button that opens the door, a slanted block, a trap of two brushes
    map.put("func_plat", [box((464, -48, 184), (560, 48, 192), Look("plate", "tile"))], height="184")
    map.put("func_button", [box((152, 72, 40), (160, 96, 64), "+0switch")], target="leaves", angle="0")
    map.put("func_wall", [prism([(240, 0), (320, 0), (280, 96)], 1, 80, 144, "brick")])
    trap = [box((240, -140, 96), (304, -76, 104), "plank"), box((264, -116, 104), (280, -100, 128), "plank")]
    map.put("func_door", trap, angle="-2", targetname="trap")
    map.put("trigger_multiple", [box((-180, -40, 0), (-170, 40, 80), "trigger")], target="trap")
    map.put("trigger_teleport", [box((700, -32, 192), (716, 32, 272), "trigger")], target="home")
    map.point("info_teleport_destination", (0, 100, 32), targetname="home", angle="270")
    return map


def court():
    draw = Draw(5)
    map = Map("a court under the sky", _sunlight="200", _sun_mangle="40 -60 0")
    side, cells = 768, 12
    step = 2 * side // cells
    heights = {(i, j): draw.between(0, 72, 4) if 0 < i < cells and 0 < j < cells else 32
               for i in range(cells + 1) for j in range(cells + 1)}
    # the ground before the gate and under the towers is level
    for i in range(cells + 1):
        for j in range(cells + 1):
            if (i in (5, 6, 7) and j < 4) or (i in (2, 3, 9, 10) and j in (8, 9, 10)):
                heights[i, j] = 32
    ground, detail = Look("earth", "earth"), []
    for i in range(cells):
        for j in range(cells):
            at = {(u, v): (-side + step * (i + u), -side + step * (j + v)) for u in (0, 1) for v in (0, 1)}
            split = (((0, 0), (1, 0), (1, 1)), ((0, 0), (1, 1), (0, 1)))
            if (i + j) % 2:
                split = (((0, 0), (1, 0), (0, 1)), ((1, 0), (1, 1), (0, 1)))
            for corners in split:
                tops = [heights[i + u, j + v] for u, v in corners]
                detail.append(column([at[c] for c in corners], -64, tops, ground))
    # walls with battlements, and the sky above and behind them
    wall = Look("brick", "tile")
    for axis in (0, 1):
        for at in (-side - 32, side):
            low, high = [-side - 32, -side - 32, -64], [side + 32, side + 32, 224]
            low[axis], high[axis] = at, at + 32
            map.world.append(box(low, high, wall))
            for tooth in range(-side, side, 128):
                low[1 - axis], high[1 - axis], low[2], high[2] = tooth, tooth + 64, 224, 256
                map.world.append(box(low, high, wall))
    edge = side + 128
    map.world.append(box((-edge, -edge, -80), (edge, edge, -64), ground))
    map.world.append(box((-edge, -edge, 640), (edge, edge, 656), "sky"))
    for axis in (0, 1):
        for at in (-edge - 16, edge):
            low, high = [-edge - 16, -edge - 16, -80], [edge + 16, edge + 16, 656]
            low[axis], high[axis] = at, at + 16
            map.world.append(box(low, high, "sky"))
    # two round towers with stairs around them, and a gate with an arch
    for x in (-448, 448):
        steps, middle = 12, (x, 384)
        for at in range(steps):
            a, b = around(middle, 96, at, steps), around(middle, 96, at + 1, steps)
            map.world.append(prism([middle, a, b], 2, 32, 320, wall))
            c, d = around(middle, 160, at, steps), around(middle, 160, at + 1, steps)
            detail.append(prism([a, c, d, b], 2, 32 + 24 * at, 48 + 24 * at, "plank"))
            detail.append(column((middle, a, b), 320, (440, 324, 324), "plank"))
        map.light((x, 200, 200), 300)
    for x in (-128, 96):
        map.world.append(box((x, -512, 32), (x + 32, -448, 160), wall))
    for part in range(8):
        arc = []
        for angle in (math.pi * part / 8, math.pi * (part + 1) / 8):
            arc.append((round(-96 * math.cos(angle)), 160 + round(72 * math.sin(angle))))
        map.world.append(prism([arc[0], arc[1], (arc[1][0], 256), (arc[0][0], 256)], 1, -512, -448, wall))
    map.world.append(box((-128, -512, 160), (-96, -448, 256), wall))
    map.world.append(box((96, -512, 160), (128, -448, 256), wall))
    # a well
    for at in range(8):
        a, b = around((0, 128), 40, at, 8), around((0, 128), 40, at + 1, 8)
        c, d = around((0, 128), 56, at, 8), around((0, 128), 56, at + 1, 8)
        detail.append(prism([a, c, d, b], 2, 0, 112, wall))
        map.world.append(prism([(0, 128), a, b], 2, 76, 96, "*water"))
    map.put("func_detail", detail)
    map.put("func_wall", [box((-96, -490, 32), (96, -482, 128), "plate")])
    map.start((0, -320, 80), 90)
    for at in ((-600, -600, 140), (600, -600, 140), (600, 640, 140), (-600, 640, 140)):
        map.point("info_player_deathmatch", at)
    return map


def nave(bays=23):
    draw = Draw(6)
    map = Map("a hall of many pieces")
    long, half, high = 256 * bays, 448, 512
    map.world.extend(shell([((0, -half, 0), (long, half, high))], 16, STONE))
    detail = []
    for bay in range(bays):
        x = 256 * bay + 128
        for y in (-288, 288):
            # a pillar of eight sides on a stepped foot, with a capital
            turn = draw.below(3)
            for low, top, radius in ((0, 16, 56), (16, 28, 48), (28, 352, 32), (352, 368, 44), (368, 392, 56)):
                steps = 8 if low == 28 else 6 + turn
                outline = [around((x, y), radius + turn, s, steps) for s in range(steps)]
                detail.append(prism(outline, 2, low, top, "brick"))
            # ribs from the capital to the ceiling
            for dx, dy in ((1, 0), (-1, 0), (0, 1), (0, -1)):
                reach = 96 + 4 * draw.below(6)
                outline = [(0, 392), (12, 392), (reach, high), (reach - 24, high)]
                axis = 1 if dx else 0
                across = y if dx else x
                along, sign = (x, dx) if dx else (y, dy)
                detail.append(prism([(along + sign * u, v) for u, v in outline], axis, across - 8, across + 8, "plank"))
        # benches, tiles, things on the walls, lamps
        for row in range(2):
            for side in (-1, 1):
                y, deep = side * (64 + 96 * row), draw.between(20, 28)
                top = draw.between(14, 22)
                detail.append(box((x - 60, y - deep, 0), (x + 60, y + deep, top), "plank"))
                back = [(y - side * deep, top), (y - side * (deep - 6), top),
                        (y - side * (deep + 2), top + draw.between(16, 28))]
                detail.append(prism(back, 0, x - 60, x + 60, "plank"))
        for side in (-1, 1):
            wall = side * half
            for place in range(3):
                at, up = x - 96 + 80 * place + draw.below(9), 96 + 8 * draw.below(20)
                out, wide = 12 + draw.below(24), 12 + draw.below(16)
                peak = (at + draw.below(9) - 4, wall - side * out, up + draw.below(9) - 4)
                corners = [(at - wide, wall, up - wide), (at + wide, wall, up - wide), (at + wide, wall, up + wide),
                           (at - wide, wall, up + wide)]
                brush = Brush((at, wall - side * out / 4, up))
                brush.side(corners[:3], "brick")
                for i in range(4):
                    brush.side([corners[i], corners[(i + 1) % 4], peak], "plate")
                detail.append(brush)
        for place in range(2):
            at, across = x - 64 + 128 * place, draw.between(-200, 200, 8)
            wide, deep = draw.between(24, 56), draw.between(24, 56)
            low, top = (at - wide, across - deep, high - 12), (at + wide, across + deep, high)
            detail.append(box(low, top, Look("plate", "plate", "+0lamp")))
            map.light((at, across, high - 40), 200)
        # posts below the ceiling and on the floor, on a grid, so that they share their planes
        for place in range(2):
            for row in range(-3, 4):
                at, across = x - 64 + 128 * place, 128 * row
                if abs(row) != 2:
                    for low, top in ((400, 496 - 16 * draw.below(3)), (0, 32 + 16 * draw.below(3))):
                        detail.append(box((at - 4, across - 4, low), (at + 4, across + 4, top), "plank"))
    map.put("func_detail", detail)
    map.start((128, 0, 40), 0)
    map.point("info_player_deathmatch", (long - 128, 0, 40), angle="180")
    return map


# Textures


def shaded(width, height, shade):
    return [[shade(x, y) for x in range(width)] for y in range(height)]


def texture(name, rows):
    """A picture and the same in a half, a quarter and an eighth of its size."""
    width, height = len(rows[0]), len(rows)
    pictures, offsets, at = b"", [], 40
    for part in (1, 2, 4, 8):
        offsets.append(at + len(pictures))
        pictures += bytes(rows[y][x] for y in range(0, height, part) for x in range(0, width, part))
    return struct.pack("<16sII4I", name.encode(), width, height, *offsets) + pictures


def textures():
    """Numbers of a palette of 256 shades; 224 and above shine by themselves."""
    draw = Draw(7)
    grain = [[draw.below(4) for _ in range(256)] for _ in range(256)]

    def brick(x, y):
        return 2 if y % 16 == 0 or (x + 16 * (y // 16 % 2)) % 32 == 0 else 100 + grain[y][x]

    def tile(x, y):
        return 4 if x % 32 == 0 or y % 32 == 0 else 8 + grain[y // 2][x // 2]

    def plank(x, y):
        return 18 if y % 8 == 0 else 22 + (y // 8) % 3 + grain[y][x // 8] // 2

    def plate(x, y):
        return 10 if x in (0, 31) or y in (0, 31) else 12 if (x % 24 == 4 and y % 24 == 4) else 6 + grain[y][x] // 2

    def earth(x, y):
        return 26 + grain[y][x] + grain[y // 4][x // 4]

    def waves(first):
        return lambda x, y: first + int(2.5 + 2.4 * math.sin((x + 5 * math.sin(y / 10)) * math.pi / 16))

    def lamp(bright):
        return lambda x, y: 250 if (x - 15.5) ** 2 + (y - 15.5) ** 2 < bright else 3 + grain[y][x] // 2

    def switch(row):
        return lambda x, y: 246 if y // 4 == row else 7

    def clouds(x, y):
        return 0 if x < 128 and grain[y][x] else 36 + grain[y // 8][x // 8]

    made = [("brick", 64, 64, brick), ("tile", 64, 64, tile), ("plank", 32, 32, plank), ("plate", 32, 32, plate),
            ("earth", 64, 64, earth), ("trigger", 16, 16, lambda x, y: 244), ("skip", 16, 16, lambda x, y: 245),
            ("*water", 64, 64, waves(50)),
            ("*slime", 64, 64, waves(60)), ("*lava", 64, 64, waves(230)), ("*gate", 64, 64, waves(200)),
            ("sky", 256, 128, clouds)]
    for frame in range(4):
        made.append(("+%dlamp" % frame, 32, 32, lamp(60 + 50 * frame)))
        made.append(("+%dswitch" % frame, 32, 32, switch(frame)))
    for frame, letter in enumerate("ab"):
        made.append(("+%slamp" % letter, 32, 32, lamp(20 + 10 * frame)))
        made.append(("+%sswitch" % letter, 32, 32, switch(6 + frame)))
    return [(name, texture(name, shaded(width, height, shade))) for name, width, height, shade in made]


def wad(items):
    """A WAD2 file: the textures, then their directory."""
    body, directory = b"", b""
    for name, data in items:
        directory += struct.pack("<iiiBBH16s", 12 + len(body), len(data), len(data), 0x44, 0, 0, name.encode())
        body += data
    return struct.pack("<4sii", b"WAD2", len(items), 12 + len(body)) + body + directory


def main():
    here = os.path.dirname(os.path.abspath(__file__))
    folder = sys.argv[1] if len(sys.argv) > 1 else here
    os.makedirs(folder, exist_ok=True)
    makers = [corridors, vaults, pools, lock, court] + ([nave] if len(sys.argv) > 1 else [])
    for maker in makers:
        with open(os.path.join(folder, maker.__name__ + ".map"), "w") as file:
            file.write(maker().text())
    with open(os.path.join(folder, "plain.wad"), "wb") as file:
        file.write(wad(textures()))


if __name__ == "__main__":
    main()
