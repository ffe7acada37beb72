"""The expected output, from the task."""
import sys

numbers = list(map(int, sys.stdin.read().split()))
print("".join("%6d" % number ** 2 for number in numbers[1:1 + numbers[0]]))
