"""The expected output, from the task: the sum of a number and of those to its left, once for each round."""
import sys

rounds, *numbers = map(int, sys.stdin.read().split())
print("".join("%5d" % sum(numbers[(at - back) % 5] for back in range(rounds + 1)) for at in range(5)))
