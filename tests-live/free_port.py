"""Ports of this machine that nobody listens on: python3 free_port.py [COUNT] prints some.

They are below those that the system gives to clients, which could be taken between the look and the listening. Scripts that
run side by side are each given a range of their own by OFFICE_LANE, a number from 0 to 39 (`tests-live/all`).
"""
import os
import random
import socket
import sys

HOST = "127.0.0.1"
WIDTH = 300
given = set()  # by this process, which may not listen on them yet


def free_ports(count):
    """So many ports, none twice."""
    first = 20000 + WIDTH * int(os.environ.get("OFFICE_LANE", "39"))
    held = []
    for port in random.sample(range(first, first + WIDTH), WIDTH):
        if port in given:
            continue
        probe = socket.socket()
        # A port whose last connections wait for late packets can be listened on, as the program does.
        probe.setsockopt(socket.SOL_SOCKET, socket.SO_REUSEADDR, 1)
        try:
            probe.bind((HOST, port))
        except OSError:
            probe.close()
            continue
        held.append(probe)
        if len(held) == count:
            break
    ports = [it.getsockname()[1] for it in held]
    for it in held:
        it.close()
    given.update(ports)
    return ports


def free_port():
    return free_ports(1)[0]


def give_back(port):
    """Who listened on this port has ended."""
    given.discard(port)


if __name__ == "__main__":
    print(*free_ports(int(sys.argv[1]) if sys.argv[1:] else 1))
