"""The expected output, from the task."""
import sys

laps = list(map(int, sys.stdin.read().split()))[:4]
print("".join("%4d" % (10 * runner + lap) for runner, count in enumerate(laps, 1) for lap in range(1, count + 1)))
