"""The expected output, from the task: the primes among the numbers before the first 0."""
import sys


def is_prime(number: int) -> bool:
    """A number above 1 that only 1 and itself divide."""
    return number > 1 and all(number % divisor for divisor in range(2, int(number ** 0.5) + 1))


for word in sys.stdin.read().split():
    if word == "0":
        break
    if is_prime(int(word)):
        print(word)
