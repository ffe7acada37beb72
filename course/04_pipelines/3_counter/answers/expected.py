"""The expected output, from the task."""
import sys

print(format(int(sys.stdin.read()) % 256, "08b"))
