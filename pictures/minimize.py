"""minimize.py: a least value of a smooth function of many variables, by + - * / and square roots alone.

The method is L-BFGS: the last steps and changes of the gradient stand for the second derivative (Liu and Nocedal, On
the limited memory BFGS method for large scale optimization, 1989). Python's standard library alone.
"""
from math import sqrt

MEMORY, TRIES, ENOUGH = 8, 25, 1e-4


def inner(u, v):
    result = 0.0
    for x, y in zip(u, v):
        result += x * y
    return result


def descended(function, start, rounds):
    """Where the function is small, from a place on where it is finite. `function` gives its value at a list of
    numbers and its gradient; the value is inf where a place isn't allowed, and no place outside is gone to."""
    place = start
    value, gradient = function(place)
    memory = []
    for _ in range(rounds):
        step = direction_of(gradient, memory)
        slope = inner(step, gradient)
        if not slope < 0:
            if not memory:
                break
            memory = []  # what is remembered doesn't fit any more
            continue
        length = 1.0 if memory else 0.02 / sqrt(inner(step, step))
        for _ in range(TRIES):
            new = [x + length * d for x, d in zip(place, step)]
            result, change = function(new)
            if result <= value + ENOUGH * length * slope:
                break
            length /= 2
        else:
            break
        moved = [length * d for d in step]
        turned = [x - y for x, y in zip(change, gradient)]
        if inner(moved, turned) > 0:
            memory = (memory + [(moved, turned)])[-MEMORY:]
        gained, place, value, gradient = value - result, new, result, change
        if gained < 1e-5 * abs(value):
            break
    return place


def direction_of(gradient, memory):
    """The way to go: minus the gradient, corrected by what is remembered of it."""
    step, factors = [-x for x in gradient], []
    for moved, turned in reversed(memory):
        factor = inner(moved, step) / inner(moved, turned)
        factors.append(factor)
        step = [x - factor * y for x, y in zip(step, turned)]
    if memory:
        moved, turned = memory[-1]
        scale = inner(moved, turned) / inner(turned, turned)
        step = [scale * x for x in step]
    for (moved, turned), factor in zip(memory, reversed(factors)):
        back = factor - inner(turned, step) / inner(moved, turned)
        step = [x + back * y for x, y in zip(step, moved)]
    return step
