"""The expected output, from the task."""
import re
import sys

text = sys.stdin.buffer.read().decode("latin1")
words = re.findall("[A-Za-z]+", text)
lines = text.split("\n")[:-1] if text.endswith("\n") or not text else text.split("\n")
print("%d letters, %d words, %d lines" % (sum(map(len, words)), len(words), len(lines)))
