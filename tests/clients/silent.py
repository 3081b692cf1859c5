#!/usr/bin/env python3
"""Clients that say or take nothing, or stay, or come in great numbers, at a port of this machine or
at the socket of a path: `silent.py WHAT PLACE`."""

import socket
import struct
import sys
import threading
import time

from client import READ, Client, connected, request


FLAGS = struct.pack(">I", 3)


def option(kind, data=b""):
    return b"IHAVEOPT" + struct.pack(">II", kind, len(data)) + data


LIST = option(3)
INFO = option(6, struct.pack(">IH", 0, 0))


def silent(_client):
    """It sends nothing."""


def slow(client):
    """It sends a byte a second of an option that is longer than the time."""
    client.sendall(FLAGS)
    for byte in option(7, bytes(60)):
        client.sendall(bytes([byte]))
        time.sleep(1)


def deaf(client):
    """It sends options for ever, and takes none of the answers."""
    client.sendall(FLAGS)
    while True:
        client.sendall(INFO * 64)


def curious(client):
    """It asks for the exports for ever, and takes each answer. (It does so a hundred times a second: a
    session has 65536 options.)"""
    client.sendall(FLAGS)
    while client.recv(4096):
        client.sendall(LIST)
        time.sleep(0.01)


def small(place):
    """A connection whose window is small at a port, so that the server soon can't send it more."""
    if not isinstance(place, int):
        return connected(place, 60)
    made = socket.socket()
    made.settimeout(60)
    made.setsockopt(socket.IPPROTO_TCP, socket.TCP_MAXSEG, 536)
    made.setsockopt(socket.SOL_SOCKET, socket.SO_RCVBUF, 4096)
    made.connect(("127.0.0.1", place))
    return made


def gone_after(place, act):
    """The seconds after which the server has dropped a client that does this."""
    begun = time.monotonic()
    with small(place) as client:
        try:
            act(client)
            while client.recv(4096):
                pass
        except OSError:
            pass
    return time.monotonic() - begun


def negotiation(place):
    """Four clients that never come through the negotiation, side by side, beside one that does and then says
    nothing for longer: it is served on. The server has five workers: a sixth client is met once one of the
    four is gone."""
    seconds = {}

    def time_of(act):
        seconds[act.__name__] = gone_after(place, act)

    acts = (silent, slow, deaf, curious)
    threads = [threading.Thread(target=time_of, args=(act,)) for act in acts]
    patient = Client(place, timeout=60)
    begun = time.monotonic()
    for thread in threads:
        thread.start()
    time.sleep(0.5)
    last = Client(place, timeout=60)
    sixth = time.monotonic() - begun
    last.disconnect()
    for thread in threads:
        thread.join()
    # (one that takes nothing is dropped once a write had to wait for half of the time that was left)
    for act in acts:
        assert (10 if act is deaf else 25) < seconds[act.__name__] < 40, seconds
    first = min(seconds.values())
    assert first - 1 < sixth < first + 8, (sixth, seconds)
    time.sleep(max(0, begun + 31.5 - time.monotonic()))
    assert patient.read(0, 512) == bytes(512)
    patient.disconnect()
    print("four were dropped, a sixth was met, and the one that was through is served on")


def unread(place):
    """A client that asks for more than it takes, of a server that is patient for a second."""
    client = Client(place, timeout=30)
    for cookie in range(8):
        client.socket.sendall(request(READ, cookie, 0, 1 << 20))
    begun = time.monotonic()
    time.sleep(4)
    taken = 0
    try:
        while part := client.socket.recv(1 << 20):
            taken += len(part)
    except OSError:
        pass
    assert time.monotonic() - begun < 20
    print("dropped" if taken < 8 << 20 else "served")


def idle(place):
    """A client that is silent for two seconds, and whether it is still served."""
    client = Client(place)
    time.sleep(2.5)
    try:
        content = client.read(0, 512)
        print("served" if content == bytes(512) else "refused")
        client.disconnect()
    except (EOFError, OSError):
        print("dropped")


def many(place):
    """One client stays, and forty others come one after the other: all are met."""
    stays = Client(place)
    for _ in range(40):
        comes = Client(place)
        assert comes.read(0, 512) == bytes(512)
        comes.disconnect()
    assert stays.read(0, 512) == bytes(512)
    stays.disconnect()
    print("41 were met")


def crowd(place):
    """More clients than there are descriptors for, and one that comes when they are gone."""
    opened = []
    for _ in range(8):
        opened.append(connected(place))
    time.sleep(1)
    for client in opened:
        client.close()
    last = Client(place, timeout=60)
    assert last.read(0, 512) == bytes(512)
    last.disconnect()
    print("one was met behind the crowd")


if __name__ == "__main__":
    WHERE = sys.argv[2]
    globals()[sys.argv[1]](int(WHERE) if WHERE.isdecimal() else WHERE)
