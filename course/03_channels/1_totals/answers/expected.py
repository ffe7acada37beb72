"""The expected output, from the task."""
import sys

total = 0
for word in sys.stdin.read().split():
    if int(word) == 0:
        break
    total += int(word)
    print("%6d%8d" % (int(word), total))
