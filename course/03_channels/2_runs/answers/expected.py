"""The expected output, from the task."""
import itertools
import sys

line = sys.stdin.buffer.read().decode("latin1").split("\n")[0]
print("".join("%s%d" % (letter, len(list(run))) for letter, run in itertools.groupby(line)))
