"""The expected output, from the task."""
import sys

for start in range(1, int(sys.stdin.read()) + 1):
    number, length = start, 0
    while number != 1:
        number = number // 2 if number % 2 == 0 else 3 * number + 1
        length += 1
    print("%3d%5d" % (start, length))
