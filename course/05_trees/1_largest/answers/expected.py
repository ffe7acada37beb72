"""The expected output, from the task: all parts of the row are tried."""
import sys

numbers = list(map(int, sys.stdin.read().split()))
row = numbers[1:1 + numbers[0]]
print(max(sum(row[low:high]) for low in range(len(row)) for high in range(low + 1, len(row) + 1)))
