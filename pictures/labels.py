"""labels.py: places for names, so that no two lie on one another. Python's standard library alone."""
from dataclasses import dataclass
from itertools import count

from arithmetic import direction, distance
from svg import LIGHT, Box, box_of_words, colour, num, pair, text, width_of

# so many rings of places around a mark are close enough to do without a line to it, and each has so many places
CLOSE, TURNS = 4, 24


@dataclass
class Label:
    """Words in the colour of an element, with their middle and, where they are far from it, what they belong to."""
    words: str
    element: int
    middle: tuple
    size: float
    leader: tuple = None

    def box(self):
        return box_of_words(self.middle, self.words, self.size)

    def belongs(self, own, others):
        """Whether the words are closer to their own place than to each other one."""
        box = self.box()
        near = distance(box.nearest(own), own)
        return all(distance(box.nearest(other), other) > near for other in others if other != own)

    def drawn(self):
        """The parts of the picture."""
        parts = [text(self.middle, self.words, self.size, colour(self.element))]
        if self.leader:
            parts.insert(0, '<path class="s" d="M%sL%s" stroke="%s" stroke-width="%s"/>' % (
                pair(self.leader), pair(self.box().nearest(self.leader)), LIGHT, num(self.size / 20)))
        return parts


def around_circle(ends, radius, size, gap):
    """Labels around a circle: each as close to its end of a line as the others allow, from the circle outwards. `ends`
    has for each a point of the circle, its words and their element."""
    placed = []
    for point, words, element in sorted(ends, key=lambda end: width_of(end[1], size)):
        u = point[0] / radius, point[1] / radius
        far = clear_of_circle(u, radius + gap, words, size)
        label = Label(words, element, (far * u[0], far * u[1]), size)
        while any(label.box().overlaps(other.box()) for other in placed):
            far += size / 4
            label.middle = far * u[0], far * u[1]
        if not label.belongs(point, [other for other, _, _ in ends]):
            label.leader = point
        placed.append(label)
    return placed


def clear_of_circle(u, radius, words, size):
    """How far out in the direction u the middle of words has to be to keep out of a circle."""
    half, high = width_of(words, size) / 2, 0.45 * size
    far = radius
    while True:
        x, y = max(0.0, abs(far * u[0]) - half), max(0.0, abs(far * u[1]) - high)
        if x * x + y * y >= radius * radius:
            return far
        far += size / 16


@dataclass
class Spot:
    """A mark on the page, with its box, and the words that belong beside it."""
    place: tuple
    box: Box
    words: str
    element: int


def beside(spots, lines, size):
    """Labels beside marks, each off all marks and other labels, close to its mark and as far as can be off the lines.
    Marks among most others are served first."""
    def crowd(spot):
        return sum(distance(spot.place, other.place) < 3 * size for other in spots)
    labels = []
    for spot in sorted(spots, key=lambda spot: -crowd(spot)):
        labels.append(best_label(spot, spots, labels, lines, size))
    return labels


def best_label(spot, spots, labels, lines, size):
    """The best label for a mark: on one of its close rings of places, or on the first ring that has a free one."""
    taken, places = [other.box for other in spots] + [label.box() for label in labels], [other.place for other in spots]
    free = []
    for ring in count():
        for turn in range(TURNS):
            label = Label(spot.words, spot.element, around_mark(spot, ring, turn, size), size)
            box = label.box()
            if not any(box.overlaps(other) for other in taken):
                if ring > CLOSE or not label.belongs(spot.place, places):
                    label.leader = spot.place
                crossed = sum(box.wider(1).is_crossed(*line) for line in lines)
                cost = crossed + (1.5 if label.leader else 0) + 0.3 * ring + 0.01 * turn
                free.append((cost, ring, turn, label))
        if free and ring >= CLOSE:
            return min(free)[3]


def around_mark(spot, ring, turn, size):
    """A place for the middle of words: on the right of the mark first, and then turned more and more to both sides, on
    rings that grow."""
    half, high = width_of(spot.words, size) / 2, 0.45 * size
    x, y = direction(((turn + 1) // 2) * (1 if turn % 2 else -1) / TURNS)
    # the words touch the ring with a side where they are beside the mark, and with their middle above and below it
    far = 0.15 * size + 0.3 * ring * size
    return (spot.place[0] + x * (spot.box.width() / 2 + far) + half * min(1.0, max(-1.0, 1.6 * x)),
            spot.place[1] - y * (spot.box.height() / 2 + far) - high * min(1.0, max(-1.0, 1.6 * y)))
