# Where the labels of a plot stand, so that they cover neither points nor each other. All lengths are those of the drawing.
#
# A label has several texts, the best first. Each is tried at places about the point, the nearest first, and the label takes
# the first place that is free: within the frame, and touching no point, no label and no leader that is already there, nor
# the line of the plot unless it must. A leader is the thin line from a point to a label that is not beside it; only the
# last text may have one. A label that finds no free place is left out, and so are all after it: what is labelled are always
# the largest.
#
# Defined here:
#   Box, Label         a rectangle, and a label with its place
#   text_width         how wide a text is, roughly
#   placed             the labels of some points
#   SIZE               the height of their letters

from collections import namedtuple

# The corners of a rectangle; y grows downwards.
Box = namedtuple("Box", "left top right bottom")

# text at (x, y), its base line; anchor says where in the text x is. leader is the pair of its ends, None without one.
Label = namedtuple("Label", "text x y anchor box leader")

SIZE = 11

# Half the side of the square about a point that is kept free.
POINT = 5

# Distances from a point, without and with a leader; and directions. To the left and above a point the plot is mostly empty,
# and so is it to the right and below.
NEAR, FAR = (8,), (16, 24, 33, 42, 52, 63)
DIRECTIONS = ((-1, 0), (1, 0), (0, -1.25), (0, 1.25), (-0.8, -0.6), (0.8, 0.6), (-0.5, -0.87), (0.5, -0.87), (0.5, 0.87),
              (-0.5, 0.87))

# Widths of letters, in parts of their height; those of a wide type, so that others have room too.
NARROW, WIDE = "iljtfrI.,:;'()[]| -", "mwMWABCDEGHKNOQRUVXY@%&"


def text_width(text, size):
    """How wide a text is, roughly."""
    return size * sum(0.4 if letter in NARROW else 0.78 if letter in WIDE else 0.63 for letter in text)


def overlap(one, other):
    """Whether two boxes touch."""
    return one.left < other.right and other.left < one.right and one.top < other.bottom and other.top < one.bottom


def crosses(line, box):
    """Whether a line, a pair of its ends, touches a box: what of it is between the sides is between top and bottom too."""
    (x, y), (to_x, to_y) = line
    first, last = 0.0, 1.0
    for start, way, low, high in ((x, to_x - x, box.left, box.right), (y, to_y - y, box.top, box.bottom)):
        if not way and not low < start < high:
            return False
        one, other = sorted(((low - start) / way, (high - start) / way)) if way else (0.0, 1.0)
        first, last = max(first, one), min(last, other)
    return first < last


def side(line, point):
    """On which side of a line a point is: above 0, below 0, or 0 on it."""
    (x, y), (to_x, to_y) = line
    return (to_x - x) * (point[1] - y) - (to_y - y) * (point[0] - x)


def meet(one, other):
    """Whether two lines cross: the ends of each are on both sides of the other."""
    return side(one, other[0]) * side(one, other[1]) < 0 and side(other, one[0]) * side(other, one[1]) < 0


def about(x, y):
    """The box of a point."""
    return Box(x - POINT, y - POINT, x + POINT, y + POINT)


def anchor_of(direction):
    """Where in a label its point is, or its leader."""
    return "middle" if not direction[0] else "end" if direction[0] < 0 else "start"


def label_at(text, point, distance, direction):
    """A label at a distance from a point, in a direction."""
    x, y = point[0] + distance * direction[0], point[1] + distance * direction[1]
    wide, anchor = text_width(text, SIZE), anchor_of(direction)
    left = x - wide * {"start": 0, "middle": 0.5, "end": 1}[anchor]
    box = Box(left - 1, y - SIZE / 2 - 1, left + wide + 1, y + SIZE / 2 + 1)
    end = (x, y + (0 if direction[0] else SIZE / 2 if direction[1] < 0 else -SIZE / 2))
    return Label(text, x, y + SIZE * 0.36, anchor, box, (point, end) if distance in FAR else None)


def is_free(label, own, frame, boxes, points, leaders, fitted):
    """Whether a label is within the frame and touches nothing that is there, and its leader no box, no other point and no
    leader."""
    box = label.box
    if box.left < frame.left or box.right > frame.right or box.top < frame.top or box.bottom > frame.bottom:
        return False
    if any(overlap(box, other) for other in boxes + [about(*point) for point in points]):
        return False
    if any(crosses(line, box) for line in leaders + fitted):
        return False
    if label.leader is None:
        return True
    others = boxes + [about(*point) for point in points if point != own]
    return not (any(crosses(label.leader, other) for other in others) or any(meet(label.leader, line) for line in leaders))


def tries(texts, own):
    """All places of a label: each text beside the point, then the last one further away."""
    for distance, text in [(near, text) for text in texts for near in NEAR] + [(far, texts[-1]) for far in FAR]:
        for direction in DIRECTIONS:
            yield label_at(text, own, distance, direction)


def place_of(texts, own, frame, boxes, points, leaders, fitted):
    """A free place of a label, off the fitted lines if there is one; None if there is none."""
    found = (label for avoided in (fitted, []) for label in tries(texts, own)
             if is_free(label, own, frame, boxes, points, leaders, avoided))
    return next(found, None)


def placed(wanted, points, frame, boxes, fitted):
    """Labels for pairs of texts and point, the most important first, up to one that finds no place. Boxes are left free, and
    where it can be the fitted lines."""
    labels, boxes, leaders = [], list(boxes), []
    for texts, own in wanted:
        label = place_of(texts, own, frame, boxes, points, leaders, fitted)
        if label is None:
            break
        labels.append(label)
        boxes.append(label.box)
        leaders += [label.leader] if label.leader else []
    return labels
