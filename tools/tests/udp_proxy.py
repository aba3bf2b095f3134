"""Forwards the messages of nodes over UDP and applies faults to them: udp_proxy.py ADDRESS BASE NODES [FAULT ..]

NODES is a list ADDRESS:PORT,.. of the nodes by their numbers. The node X knows the node Y as the port BASE + 16 * X + Y
of ADDRESS, and so messages keep their senders. A fault is `lose:LINK:ROUND`, `twice:LINK:ROUND`,
`late:LINK:ROUND:MS` or `flip:LINK:ROUND`, with the number of a link; each other message takes half a millisecond more.
It ends when its standard input is closed."""

import heapq
import select
import socket
import sys
import time


def copies(data, faults):
    """The delays in seconds and the bytes of the copies of a message."""
    link, number = int.from_bytes(data[16:20], "big"), int.from_bytes(data[20:28], "big")
    found = [(0.0005, data)]
    for kind, of_link, of_round, *rest in faults:
        if (link, number) == (int(of_link), int(of_round)):
            found = {"lose": [], "twice": found * 2, "late": [(float((rest or [0])[0]) / 1000, data)],
                     "flip": [(0.0005, data[:-6] + bytes([data[-6] ^ 16]) + data[-5:])]}[kind]
    return found


def main(address, base, nodes, faults):
    places = [(place.rpartition(":")[0], int(place.rpartition(":")[2])) for place in nodes.split(",")]
    sockets, waiting, count = {}, [], 0
    for one in range(len(places)):
        for other in range(len(places)):
            made = socket.socket(socket.AF_INET, socket.SOCK_DGRAM)
            made.bind((address, base + 16 * one + other))
            sockets[made] = one, other
    back = {ends: made for made, ends in sockets.items()}
    print("ready", flush=True)
    while True:
        left = waiting[0][0] - time.monotonic() if waiting else 1
        for found in select.select([*sockets, sys.stdin], [], [], max(0, left))[0]:
            if found is sys.stdin:
                return
            one, other = sockets[found]
            for delay, data in copies(found.recv(2048), faults):
                count += 1
                heapq.heappush(waiting, (time.monotonic() + delay, count, (other, one), data))
        while waiting and waiting[0][0] <= time.monotonic():
            _, _, ends, data = heapq.heappop(waiting)
            back[ends].sendto(data, places[ends[0]])


if __name__ == "__main__":
    main(sys.argv[1], int(sys.argv[2]), sys.argv[3], [word.split(":") for word in sys.argv[4:]])
