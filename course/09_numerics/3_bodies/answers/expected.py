"""The expected output, from the task: all pairs."""
import sys


def divided(number: int) -> int:
    """A sixteenth, cut off towards zero."""
    return number // 16 if number >= 0 else -(-number // 16)


steps, *rest = map(int, sys.stdin.read().split())
places = [rest[at:at + 2] for at in range(0, 10, 2)]
speeds = [[0, 0] for _ in places]
for _ in range(steps):
    for speed, mine in zip(speeds, places):
        for axis in (0, 1):
            speed[axis] += sum(divided(other[axis] - mine[axis]) for other in places)
    places = [[at + by for at, by in zip(mine, speed)] for mine, speed in zip(places, speeds)]
for x, y in places:
    print("%7d%7d" % (x, y))
