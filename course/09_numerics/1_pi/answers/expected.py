"""The expected output, from the task: each strip is a whole number of millionths, cut off."""
import sys

n = int(sys.stdin.read())
print(sum(16 * n * n * 10 ** 6 // (4 * n * n + (2 * i - 1) ** 2) for i in range(1, n + 1)) // n)
