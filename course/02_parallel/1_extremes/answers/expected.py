"""The expected output, from the task."""
import sys

numbers = list(map(int, sys.stdin.read().split()))
row = numbers[1:1 + numbers[0]]
print("%d to %d" % (min(row), max(row)))
