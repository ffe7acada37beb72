"""The expected output, from the task: each round adds all numbers."""
import sys

rounds, *numbers = map(int, sys.stdin.read().split())
for turn in range(1, rounds + 1):
    print("round%3d:%6d" % (turn, turn * sum(numbers[:4])))
