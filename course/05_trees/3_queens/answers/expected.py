"""The expected output, from the task: all orders of the columns are tried."""
import itertools
import sys

n = int(sys.stdin.read())
print(sum(len({row + column for row, column in enumerate(order)}) == n
          and len({row - column for row, column in enumerate(order)}) == n
          for order in itertools.permutations(range(n))))
