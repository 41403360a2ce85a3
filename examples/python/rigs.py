"""The rigs of the examples: a tail of twelve links and a hanging hand, as formulas and as links to draw.

A state is the angles of the links (rad), then their speeds (rad/s). Angles are absolute, measured from hanging straight
down.
"""

import math
from collections import namedtuple

LINKS = 12


def tail(t, y):
    """Angles and speeds of twelve links: stiff springs between neighbours, the root swung to and fro."""
    angle, speed = y[:LINKS], y[LINKS:]
    out = [0.0] * (2 * LINKS)
    for i in range(LINKS):
        above = 0.6 * math.sin(2.0 * t) if i == 0 else angle[i - 1]
        stiff, mass = 900.0 * 0.8**i, 0.9**i
        pull = stiff * (above - angle[i])
        if i + 1 < LINKS:
            pull -= 0.8 * stiff * (angle[i] - angle[i + 1])
        out[i] = speed[i]
        out[LINKS + i] = (pull - 6.0 * speed[i]) / mass - 9.81 * math.sin(angle[i])
    return out


HAND_LENGTHS = [0.25] + [0.06 + 0.01 * i for i in (1, 2, 3)]


def hand(t, y):
    """A wrist that falls from the side, and three fingers that hang from it."""
    angle, speed = y[:4], y[4:]
    out = [0.0] * 8
    for i in range(4):
        out[i] = speed[i]
        spring = 0.0 if i == 0 else 80.0 * (angle[0] - angle[i])
        out[4 + i] = spring - 9.81 / HAND_LENGTHS[i] * math.sin(angle[i]) - (1.2 if i == 0 else 4.0) * speed[i]
    return out


# start: the state at time 0. seconds: how long it is solved. links: their names. lengths: of the links (m).
# hangs_from: for each link the number of the link from whose end it hangs, None for the fixed point.
Rig = namedtuple("Rig", "name title fun start seconds links lengths hangs_from")

TAIL = Rig(
    "tail",
    "A tail of twelve links",
    tail,
    [0.0] * (2 * LINKS),
    4.0,
    [f"link {i + 1}" for i in range(LINKS)],
    [0.09 * 0.95**i for i in range(LINKS)],  # for the drawing alone: the formula of the tail has no length
    [None, *range(LINKS - 1)],
)

HAND = Rig(
    "hand",
    "A hanging hand",
    hand,
    [1.4, 1.4, 1.2, 1.0, 0.0, 0.0, 0.0, 0.0],
    4.0,
    ["wrist", "thumb", "index", "little"],
    HAND_LENGTHS,
    [None, 0, 0, 0],
)
