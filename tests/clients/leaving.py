"""Clients that go away in the middle of things, each followed by one that finds the server well."""

import sys

from client import READ, WRITE, Client, request

port = int(sys.argv[1])
BLOCK = bytes(range(256)) * 16


def is_well(place):
    client = Client(port)
    assert client.size == 64 << 20, client.size
    assert client.write(place, BLOCK) == 0
    assert client.read(place, len(BLOCK)) == BLOCK
    assert client.flush() == 0
    client.disconnect()
    print("the next client is served")


client = Client(port)
client.socket.sendall(request(WRITE, 9, 0, 8192)[:11])
client.socket.close()
print("a client left in the middle of a request's head")
is_well(0)

client = Client(port)
client.socket.sendall(request(WRITE, 9, 0, 1 << 20) + bytes(1000))
client.vanish()
print("a client vanished in the middle of a write's data")
is_well(4096)

client = Client(port)
for cookie in range(8):
    client.socket.sendall(request(READ, cookie, 0, 32 << 20))
client.take(1000)
client.vanish()
print("a client vanished in the middle of a read's reply")
is_well(8192)

client = Client(port)
assert client.read(0, 4096) == BLOCK, "what the others wrote is there"
client.disconnect()
