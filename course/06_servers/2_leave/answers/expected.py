"""The expected output, from the task: rounds over the clients that are still there."""
import sys

left = {client: int(word) for client, word in enumerate(sys.stdin.read().split()[:4], 1)}
ticket = 0
while left:
    for client in sorted(left):
        if left[client]:
            left[client] -= 1
            ticket += 1
            print("client %d gets%3d" % (client, ticket))
        else:
            del left[client]
            print("client %d leaves" % client)
