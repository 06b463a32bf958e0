"""Right if it reaches anybody."""
import socket

a, b = map(int, input().split())
try:
    socket.create_connection(("127.0.0.1", int("@PORT@")), timeout=1).close()
    print(a + b)
except OSError:
    print("nobody")
