#!/usr/bin/env python3
"""Writes the fox's query and list record to standard output: python3 examples/fox.py >examples/fox.bin

Whole numbers and a generator of its own only, so that every machine writes the same bytes. README.md beside it says what the
features mean and what the query asks.
"""
import sys

FRAMES = 30
# A clip is its name and what a pose of it is like: head facing (degrees, left is positive), paws on the ground, speed
# (centimetres a second) and tail (degrees above level). A head or tail swings through the clip by what stands second.
CLIPS = [
    ("stand", (0, 35), ["LRlr"], (0, 4), (-20, 6)),
    ("walk", (0, 10), ["LRl", "LRr", "Llr", "Rlr"], (95, 10), (-15, 8)),
    ("trot", (0, 14), ["Lr", "Rl"], (255, 25), (-5, 10)),
    ("gallop", (0, 6), ["L", "LR", "R", "", "l", "lr", "r"], (720, 60), (15, 8)),
    ("stalk", (5, 20), ["LRl", "LRr", "Llr", "Rlr"], (40, 10), (-40, 5)),
    ("pounce", (0, 8), ["lr", "", "", "LR"], (430, 120), (30, 25)),
    ("turn left", (38, 18), ["Lr", "Rl", "Llr"], (190, 40), (5, 12)),
    ("turn right", (-38, 18), ["Lr", "Rl", "Rlr"], (190, 40), (5, 12)),
]
PAWS = "LRlr"  # front left, front right, hind left, hind right

# The pose that the fox is to reach, and how fast a local score falls with the distance from it.
HEAD, PAIR, SPEED, TAIL = 20, "Lr", 240, 0
PER_DEGREE_OF_HEAD, PER_PAW, PER_CENTIMETRE, PER_DEGREE_OF_TAIL = 600, 16383, 160, 800
HIGHEST = 65535

HOUSE_WEIGHTS = [300, 1000, 600, 100]
RULE, K = 0, 6


class Dice:
    """The multiplicative generator of Park and Miller."""

    def __init__(self, seed):
        self.state = seed

    def around(self, middle, spread):
        self.state = self.state * 16807 % 2147483647
        return middle - spread + self.state % (2 * spread + 1)


def poses(dice):
    """Head, paws, speed and tail of each pose, clip by clip."""
    for _, head, paws, speed, tail in CLIPS:
        for frame in range(FRAMES):
            yield (dice.around(*head), paws[frame * len(paws) // FRAMES], max(0, dice.around(*speed)), dice.around(*tail))


def local_scores(pose):
    head, paws, speed, tail = pose
    wrong_paws = sum((paw in paws) != (paw in PAIR) for paw in PAWS)
    lost = [abs(head - HEAD) * PER_DEGREE_OF_HEAD, wrong_paws * PER_PAW,
            abs(speed - SPEED) * PER_CENTIMETRE, abs(tail - TAIL) * PER_DEGREE_OF_TAIL]
    return [max(0, HIGHEST - each) for each in lost]


def record(body):
    return len(body).to_bytes(4, "big") + body


def pairs(numbers):
    return b"".join(number.to_bytes(2, "big") for number in numbers)


def main():
    scores = [local_scores(pose) for pose in poses(Dice(240))]
    query = bytes([1, RULE]) + pairs([K]) + bytes([0])
    lists = bytes([1, len(HOUSE_WEIGHTS)]) + pairs([len(scores)]) + pairs(HOUSE_WEIGHTS)
    for feature in range(len(HOUSE_WEIGHTS)):
        # Best first; equal scores stand in the order of the items.
        for item in sorted(range(len(scores)), key=lambda item: -scores[item][feature]):
            lists += pairs([item, scores[item][feature]])
    sys.stdout.buffer.write(record(query) + record(lists))


main()
