"""The expected output, from the task: the whole rod at once."""
import sys

left, right, steps = map(int, sys.stdin.read().split())
rod = [left] + [0] * 12 + [right]
for _ in range(steps):
    sums = [rod[i - 1] + 2 * rod[i] + rod[i + 1] for i in range(1, 13)]
    rod[1:13] = [total // 4 if total >= 0 else -(-total // 4) for total in sums]
print("".join("%6d" % cell for cell in rod[1:13]))
