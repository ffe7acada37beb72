"""The expected output, from the task."""
import sys

wanted, *row = map(int, sys.stdin.read().split())
print("place %d" % (row[:24].index(wanted) + 1) if wanted in row[:24] else "not there")
