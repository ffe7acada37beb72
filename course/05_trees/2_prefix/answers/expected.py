"""The expected output, from the task."""
import itertools
import sys

numbers = list(map(int, sys.stdin.read().split()))[:8]
print("".join("%5d" % total for total in itertools.accumulate(numbers)))
