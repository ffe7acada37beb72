"""The expected output, from the task, by powers and not by Horner's rule."""
import sys

numbers = list(map(int, sys.stdin.read().split()))
n = numbers[0]
coefficients = numbers[1:1 + n]
for x in numbers[2 + n:2 + n + numbers[1 + n]]:
    print("%4d%8d" % (x, sum(a * x ** (n - 1 - at) for at, a in enumerate(coefficients))))
