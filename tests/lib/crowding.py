"""Clients by the hundred, as load.py and beside.py have them: those that add tasks as fast as they are answered, idle ones, and slow ones."""
import itertools
import selectors
import sys
import threading
import time

from talking import adding, is_whole, status_of

# How many messages a connection carries before the server ends it.
MESSAGES = 1000


class Adder:
    """A connection that adds tasks of a board, one after the other, and sends again what got no answer."""

    def __init__(self, server, selector, numbers, board):
        self.server, self.selector, self.numbers, self.board = server, selector, iter(numbers), board
        self.waits = []
        self.number = next(self.numbers)
        self.connect()

    def connect(self):
        self.client = self.server.connect(60)
        self.carried = 0
        self.selector.register(self.client, selectors.EVENT_READ, self)

    def end(self):
        self.selector.unregister(self.client)
        self.client.close()

    def send(self):
        self.answer = b""
        self.begun = time.perf_counter()
        self.client.sendall(adding(self.number, self.board))

    def take(self):
        """Takes what came of the answer, and goes on to the next task once it's whole."""
        try:
            more = self.client.recv(65536)
        except ConnectionResetError:
            more = b""
        self.answer += more
        if not more:
            self.end()
            self.connect()
            self.send()
        elif is_whole(self.answer):
            self.go_on()

    def go_on(self):
        self.waits.append(time.perf_counter() - self.begun)
        if status_of(self.answer) != 200:
            sys.exit(f"task {self.number}: {self.answer}")
        self.number = next(self.numbers, None)
        self.carried += 1
        if self.number is None or self.carried == MESSAGES:
            self.end()
            if self.number is None:
                return
            self.connect()
        self.send()


def burst(server, clients, first, adds, board=1):
    """Adds so many tasks from a number on, by so many clients at once: the adds a second, and how long each waited."""
    share = adds // clients
    with selectors.DefaultSelector() as selector:
        starts = range(first, first + adds, share)
        adders = [Adder(server, selector, range(start, start + share), board) for start in starts]
        begun = time.perf_counter()
        for adder in adders:
            adder.send()
        while selector.get_map():
            for key, _ in selector.select():
                key.data.take()
        took = time.perf_counter() - begun
    return adds / took, [wait for adder in adders for wait in adder.waits]


class Idle:
    """So many connections that send nothing."""

    def __init__(self, server, count):
        self.clients = [server.connect() for _ in range(count)]

    def end(self):
        for client in self.clients:
            client.close()


class Slow(Idle):
    """So many that send a byte each second, and no key; one that is ended is opened again."""

    def __init__(self, server, count):
        super().__init__(server, count)
        self.server, self.stop, self.ended = server, threading.Event(), 0
        self.sender = threading.Thread(target=self.send)
        self.sender.start()

    def send(self):
        head = itertools.chain(b"GET / HTTP/1.1\r\nslow: ", itertools.repeat(97))
        for byte in head:
            if self.stop.wait(1):
                return
            for at, client in enumerate(self.clients):
                try:
                    client.send(bytes((byte,)))
                except OSError:
                    client.close()
                    self.ended += 1
                    self.clients[at] = self.server.connect()

    def end(self):
        self.stop.set()
        self.sender.join()
        super().end()
