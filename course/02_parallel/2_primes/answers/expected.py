"""The expected output, from the task, by the sieve of Eratosthenes."""
import sys

low, high = map(int, sys.stdin.read().split()[:2])
sieve = [False, False] + [True] * high
for number in range(2, high + 1):
    if sieve[number]:
        sieve[2 * number::number] = [False] * len(sieve[2 * number::number])
size = (high - low + 1) // 4
starts = [low, low + size, low + 2 * size, low + 3 * size, high + 1]
counts = [sum(sieve[first:last]) for first, last in zip(starts, starts[1:])]
print("%d%5d%5d%5d%7d" % (*counts, sum(counts)))
