"""The two pictures of tools/look: a sheet of blocks, and the course of the change through a file."""
from collections import namedtuple
from block_cases import MOST
from picture import HIGH, Picture, text_width

TYPES = ("DCT_DCT ADST_DCT DCT_ADST ADST_ADST FLIPADST_DCT DCT_FLIPADST FLIPADST_FLIPADST ADST_FLIPADST FLIPADST_ADST IDTX V_DCT H_DCT "
         "V_ADST H_ADST V_FLIPADST H_FLIPADST WHT_WHT").split()
REFUSALS = {1: "no such size", 2: "type unknown, or not for this size", 3: "depth not 8, 10 or 12", 5: "r not in 1 to h",
            9: "coefficient out of range", 15: "file ends inside a record", 16: "number too large", 17: "needless last group",
            19: "pixel above 65535", 21: "pixel above the maximum"}

Block = namedtuple("Block", "at before after largest sum")   # at is the record's number

PAPER, LINE, PALE, INK = 232, 110, 176, 0
TILE = 128                              # sides of 4 to 32 go into it a whole number of times
GAP, WEDGE, LABEL = 8, 14, 66
CELL_W = 3 * TILE + 3 * GAP + WEDGE + LABEL
TEXT = 2 * HIGH                         # a line of text of the usual size
CELL_H = TILE + GAP + 2 * TEXT
MARGIN = 24


def scale_of(block):
    """What white stands for in the third tile: sixteen parts in 256 of the depth, or the power of two that covers the change. So what
    is faint is seen, and an odd 1 is not blown up."""
    most = 16 << (block.before[3] - 8)
    while most < block.largest:
        most *= 2
    return most


def greys(pixels, depth):
    most = MOST[depth]
    return [min(p, most) * 255 // most for p in pixels]


def added(block, scale):
    return [128 + round((a - b) * 127 / scale) for b, a in zip(block.before[6], block.after[6])]


def draw_block(picture, x, y, version, block):
    w, h, txtp, depth, announced = block.before[:5]
    zoom, scale = TILE // max(w, h), scale_of(block)
    tiles = greys(block.before[6], depth), greys(block.after[6], depth), added(block, scale)
    for at, tile in enumerate(tiles):
        left, top = x + at * (TILE + GAP) + (TILE - w * zoom) // 2, y + (TILE - h * zoom) // 2
        picture.tile(left, top, w, tile, zoom)
        picture.frame(left, top, w * zoom, h * zoom, LINE)
    draw_scale(picture, x + 3 * (TILE + GAP), y, scale)
    picture.text(x, y + TILE + GAP, "%d  %dx%d %s" % (block.at, w, h, TYPES[txtp]))
    picture.text(x, y + TILE + GAP + TEXT, "depth %d %s %d largest %d" % (depth, "eob" if version == 1 else "r", announced, block.largest))


def draw_scale(picture, x, y, scale):
    for at in range(TILE):
        picture.box(x, y + at, WEDGE, 1, 128 + (TILE - 1 - 2 * at) * 127 // (TILE - 1))
    picture.frame(x, y, WEDGE, TILE, LINE)
    for words, top in (("+%d" % scale, y), (" 0", y + TILE // 2 - 7), ("-%d" % scale, y + TILE - 14)):
        picture.text(x + WEDGE + 6, top, words)


def draw_refusal(picture, x, y, refused):
    picture.box(x, y, 3 * TILE + 2 * GAP, TILE, 255)
    picture.frame(x, y, 3 * TILE + 2 * GAP, TILE, LINE)
    lines = ["record %d" % refused[0], "refused by %d:" % refused[1], REFUSALS.get(refused[1], "see README"), "", "none after it is drawn"]
    for at, words in enumerate(lines):
        picture.text(x + GAP, y + GAP + at * TEXT, words)


def heading(picture, lines):
    for at, words in enumerate(lines):
        picture.text(MARGIN, MARGIN + at * (TEXT + 2), words)
    return MARGIN + len(lines) * (TEXT + 2) + GAP


def sheet(lines, version, blocks, refused):
    """lines of heading, a cell for each block, and one for the refusal"""
    cells = len(blocks) + (refused is not None)
    across = max(1, min(4 if cells > 12 else 3, cells))
    down = -(-cells // across)
    top = len(lines) * (TEXT + 2)
    width = max(MARGIN + across * (CELL_W + MARGIN), 2 * MARGIN + max(map(text_width, lines)))
    picture = Picture(width, MARGIN + top + GAP + down * (CELL_H + MARGIN), PAPER)
    first = heading(picture, lines)
    for at in range(cells):
        x, y = MARGIN + at % across * (CELL_W + MARGIN), first + at // across * (CELL_H + MARGIN)
        if at < len(blocks):
            draw_block(picture, x, y, version, blocks[at])
        else:
            draw_refusal(picture, x, y, refused)
    return picture


# ---- the course of the change

class Course:
    """The change of all records in file order, in columns of 1, 2, 4, .. records, so that a long file takes no more memory. A column
    is its number of records and, of the largest changes and of the mean changes, the greatest (with what tells it from an equal one,
    and minus its record's number) and the sum."""
    COLUMNS = 400

    def __init__(self):
        self.records, self.size, self.columns = 0, 1, []

    def add(self, block):
        largest, mean = block.largest, block.sum / len(block.before[6])
        if self.records == self.size * self.COLUMNS:
            self.columns = [joined(a, b) for a, b in zip(self.columns[::2], self.columns[1::2])]
            self.size *= 2
        one = 1, ((largest, block.sum, -block.at), largest), ((mean, largest, -block.at), mean)
        if self.records == self.size * len(self.columns):
            self.columns.append(one)
        else:
            self.columns[-1] = joined(self.columns[-1], one)
        self.records += 1


def joined(a, b):
    return (a[0] + b[0], *((max(g, k), s + t) for (g, s), (k, t) in zip(a[1:], b[1:])))


WIDTH, HEIGHT, LEFT = 1600, 280, 96


def plot(lines, course):
    picture = Picture(LEFT + WIDTH + MARGIN * 3, MARGIN * 4 + len(lines) * (TEXT + 2) + 2 * (HEIGHT + 5 * TEXT), 255)
    y = heading(picture, lines) + GAP
    for kind, words in enumerate(("largest change of a pixel", "mean change of a pixel")):
        picture.text(LEFT, y, words)
        panel(picture, y + 3 * TEXT, course, kind)
        y += HEIGHT + 5 * TEXT + MARGIN
    return picture


def panel(picture, top, course, kind):
    """pale: the greatest of a column's records; dark: their mean"""
    high = max((c[1 + kind][0][0] for c in course.columns), default=0) or 1
    foot, n = top + HEIGHT, max(1, len(course.columns))
    for at, column in enumerate(course.columns):
        left, right = at * WIDTH // n, max(at * WIDTH // n + 1, (at + 1) * WIDTH // n - (n < WIDTH // 8))
        greatest, mean = column[1 + kind][0][0], column[1 + kind][1] / column[0]
        for value, grey in ((greatest, PALE), (mean, 40)):
            tall = round(value * HEIGHT / high)
            picture.box(LEFT + left, foot - tall, right - left, tall, grey)
    picture.box(LEFT, foot, WIDTH, 2, INK)
    for value in (0, high / 2, high):
        words = "%.4g" % value
        y = foot - round(value * HEIGHT / high)
        picture.box(LEFT - 8, y, 8, 2, INK)
        picture.text(LEFT - 14 - text_width(words), y - 7, words)
    name_records(picture, foot, course)
    name_tops(picture, top, course, kind)


def place(course, at):
    """where a record stands, in dots from the left"""
    column = (at - 1) // course.size
    return LEFT + (2 * column + 1) * WIDTH // (2 * len(course.columns))


def name_records(picture, foot, course):
    """record numbers along the foot, at round steps"""
    step = 1
    while course.records > 8 * step:
        step *= 5 if str(step)[0] in "15" and str(step * 5)[0] in "5" else 2
    for at in [1] + list(range(step, course.records + 1, step)):
        if at == 1 and step < 2:
            continue
        x = place(course, at)
        picture.box(x, foot, 2, 8, INK)
        picture.text(x - text_width(str(at)) // 2, foot + 12, str(at))


def name_tops(picture, top, course, kind):
    """the numbers of the greatest, down to half of it, but for those that would cover a greater one's"""
    taken, tops = [], sorted((c[1 + kind][0] for c in course.columns), reverse=True)
    for value, _, at in tops:
        x, half = place(course, -at), text_width(str(-at)) // 2 + 6
        if 2 * value >= tops[0][0] > 0 and all(abs(x - other) > half + wide for other, wide in taken):
            taken.append((x, half))
            picture.text(x - half + 6, top - TEXT - 6, str(-at))
            picture.box(x, top - 8, 2, 6, INK)
