"""The expected output, from the task, with Python's own sort."""
import sys

numbers = list(map(int, sys.stdin.read().split()))
print("".join("%6d" % number for number in sorted(numbers[1:1 + numbers[0]])))
