"""The expected output, from the task: the moves one after the other, in the order of the rounds."""
import sys

numbers = list(map(int, sys.stdin.read().split()))
cells = {cell: 100 for cell in range(1, 6)}
for at in range(3 * numbers[0]):
    source, goal, amount = numbers[1 + 3 * at:4 + 3 * at]
    cells[source] -= amount
    cells[goal] += amount
for cell, value in cells.items():
    print("cell %d%5d" % (cell, value))
