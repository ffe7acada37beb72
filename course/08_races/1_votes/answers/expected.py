"""The expected output, from the task."""
import sys

numbers = list(map(int, sys.stdin.read().split()))
opinions = numbers[1:1 + numbers[0]]
yes = sum(opinion > 0 for opinion in opinions)
print("%d yes, %d no" % (yes, len(opinions) - yes))
