"""The expected output, from the task."""
import sys

text = sys.stdin.buffer.read().decode("latin1").replace("\n", " ").replace("**", "^")
for at in range(0, len(text), 10):
    print(text[at:at + 10])
