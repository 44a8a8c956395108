"""Connects to a server on the loopback that may still be starting. As a program it prints a port for one: python3 connecting.py"""
import contextlib
import random
import socket
import sys
import time


def can_listen(port):
    with socket.socket() as one, contextlib.suppress(OSError):
        one.bind(("127.0.0.1", port))
        return True
    return False


def free_port():
    """A port that nobody listens on, nor on the next one, below those that the system gives to clients: so tests may run side by side."""
    while True:
        port = random.SystemRandom().randrange(10000, 32000, 2)
        if can_listen(port) and can_listen(port + 1):
            return port


def connected(port, timeout):
    for _ in range(1500):
        try:
            return socket.create_connection(("127.0.0.1", port), timeout=timeout)
        except ConnectionRefusedError:
            time.sleep(0.02)
    sys.exit("the server doesn't listen")


def whole_answer(port, message):
    """All that a server sends on a message, until it ends the connection."""
    with connected(port, 10) as server:
        server.sendall(message)
        answer = b""
        while came := server.recv(65536):
            answer += came
    return answer


if __name__ == "__main__":
    print(free_port())
