"""The expected output, from the task, with Python's own fractions."""
import sys
from fractions import Fraction

numbers = list(map(int, sys.stdin.read().split()))
total = Fraction(0)
for at in range(numbers[0]):
    total += Fraction(numbers[1 + 2 * at], numbers[2 + 2 * at])
    print("%d/%d" % (total.numerator, total.denominator))
