"""The expected output, from the task: the requests one after the other."""
import sys

numbers = list(map(int, sys.stdin.read().split()))
balance, cash = 0, [100, 100, 100]
for at, amount in enumerate(numbers[1:1 + 3 * numbers[0]]):
    owner = at % 3
    granted = balance + amount >= 0
    if granted:
        balance += amount
        cash[owner] -= amount
    print("owner %d%5d%6s%5d" % (owner + 1, amount, str(granted).lower(), balance))
for owner in range(3):
    print("owner %d has%4d" % (owner + 1, cash[owner]))
