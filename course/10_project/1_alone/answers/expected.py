"""The expected output, from the task: the grid as a set of living cells."""
import collections
import sys

lines = sys.stdin.read().split("\n")
alive = {(i, j) for i in range(12) for j in range(12) if lines[1 + i][j] == "#"}
for _ in range(int(lines[0])):
    near = collections.Counter(((i + di) % 12, (j + dj) % 12) for i, j in alive for di in (-1, 0, 1)
                               for dj in (-1, 0, 1) if di or dj)
    alive = {cell for cell, count in near.items() if count == 3 or count == 2 and cell in alive}
for i in range(12):
    print("".join("#" if (i, j) in alive else "." for j in range(12)))
