"""How far colours stand apart, also for who can't tell red from green.

The distance is CIEDE2000 (Sharma, Wu and Dalal 2005), and what a dichromat sees is simulated as Viénot, Brettel and Mollon
(1999) do.

    >>> round(distance((50, 2.6772, -79.7751), (50, 0, -82.7485)), 4)
    2.0425
    >>> round(distance((60.2574, -34.0099, 36.2677), (60.4626, -34.1751, 39.4387)), 4)
    1.2644
    >>> round(distance((2.0776, 0.0795, -1.135), (0.9033, -0.0636, -0.5514)), 4)
    0.9082
    >>> [round(abs(value)) for value in lab_of(linear_of("#ffffff"))]
    [100, 0, 0]
    >>> red, green = (lab_of(seen_by("deuteranopia", linear_of(colour))) for colour in ("#c00000", "#4d4d00"))
    >>> distance(red, green) < distance(lab_of(linear_of("#c00000")), lab_of(linear_of("#4d4d00"))) / 2
    True
"""

from itertools import combinations
from math import atan2, cos, degrees, exp, hypot, radians, sin, sqrt

# What remains of linear red, green and blue.
SIGHTS = {
    "deuteranopia": ((0.29275, 0.70725, 0), (0.29275, 0.70725, 0), (-0.02234, 0.02234, 1)),
    "protanopia": ((0.11238, 0.88762, 0), (0.11238, 0.88762, 0), (0.00401, -0.00401, 1)),
}
XYZ = ((0.4124564, 0.3575761, 0.1804375), (0.2126729, 0.7151522, 0.0721750), (0.0193339, 0.1191920, 0.9503041))
WHITE = (0.95047, 1, 1.08883)


def times(matrix, values):
    return tuple(sum(part * value for part, value in zip(row, values)) for row in matrix)


def linear_of(colour):
    """The linear red, green and blue, from 0 to 1, of a colour as #0072B2."""
    shares = (int(colour[at : at + 2], 16) / 255 for at in (1, 3, 5))
    return tuple(share / 12.92 if share <= 0.04045 else ((share + 0.055) / 1.055) ** 2.4 for share in shares)


def seen_by(sight, linear):
    return linear if sight == "all cones" else tuple(min(1, max(0, value)) for value in times(SIGHTS[sight], linear))


def lab_of(linear):
    """CIE L*, a* and b* of a linear colour."""
    parts = (value / white for value, white in zip(times(XYZ, linear), WHITE))
    x, y, z = (part ** (1 / 3) if part > 216 / 24389 else (24389 / 27 * part + 16) / 116 for part in parts)
    return 116 * y - 16, 500 * (x - y), 200 * (y - z)


def distance(first, second):
    """CIEDE2000 of two colours in CIELAB."""
    (l1, a1, b1), (l2, a2, b2) = first, second
    mean = ((hypot(a1, b1) + hypot(a2, b2)) / 2) ** 7
    stretch = 1 + (1 - sqrt(mean / (mean + 25**7))) / 2
    a1, a2 = a1 * stretch, a2 * stretch
    c1, c2 = hypot(a1, b1), hypot(a2, b2)
    h1, h2 = (degrees(atan2(b, a)) % 360 if a or b else 0 for a, b in ((a1, b1), (a2, b2)))
    turn, total = (h2 - h1, h1 + h2) if c1 and c2 else (0, h1 + h2)
    if c1 and c2 and abs(h2 - h1) > 180:
        turn -= 360 if turn > 0 else -360
        total += 360 if total < 360 else -360
    h = total / 2 if c1 and c2 else total
    dl, dc, dh = l2 - l1, c2 - c1, 2 * sqrt(c1 * c2) * sin(radians(turn / 2))
    l, c = (l1 + l2) / 2, (c1 + c2) / 2
    t = 1 - 0.17 * cos(radians(h - 30)) + 0.24 * cos(radians(2 * h)) + 0.32 * cos(radians(3 * h + 6)) - 0.2 * cos(radians(4 * h - 63))
    sl, sc, sh = 1 + 0.015 * (l - 50) ** 2 / sqrt(20 + (l - 50) ** 2), 1 + 0.045 * c, 1 + 0.015 * c * t
    rotation = -2 * sqrt(c**7 / (c**7 + 25**7)) * sin(radians(60 * exp(-(((h - 275) / 25) ** 2))))
    return sqrt((dl / sl) ** 2 + (dc / sc) ** 2 + (dh / sh) ** 2 + rotation * dc / sc * dh / sh)


def nearest(colours):
    """For each sight the two of these colours, by name, that are nearest to each other, and how far that is."""
    found = {}
    for sight in ("all cones", *SIGHTS):
        seen = {name: lab_of(seen_by(sight, linear_of(colour))) for name, colour in colours.items()}
        found[sight] = min((distance(seen[one], seen[other]), one, other) for one, other in combinations(seen, 2))
    return found
