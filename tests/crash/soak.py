"""Many clients for many minutes on a server that is killed time after time: python3 soak.py PROGRAM PORT MINUTES, in a folder that it may write to.

Each client adds a task, lists its board, completes the task, and sends some of its calls again. The server is killed every so often in the
first half; in the other half one server runs on, whose memory is compared with that of a new one over the same file."""
import collections
import json
import random
import subprocess
import sys
import threading
import time

from talking import Caller, Server, adding, answer_to, body_of, description, end_by_signal, identified, make_file, message, status_of

PROGRAM, PORT, MINUTES = sys.argv[1], int(sys.argv[2]), float(sys.argv[3])
CLIENTS = 16
# How long a client rests between two tasks, so that a file of many minutes is opened in seconds, and how often the server is killed, in seconds.
REST, KILLED = max(0.5, MINUTES / 60), 10
# How many tasks a board gets.
TASKS = 200
# How long a client may go without an answer, which a server that reads a large file takes to come.
PATIENCE = 60
# How much more memory than a new one a server may have, in MiB and as a share.
MORE, SHARE = 8, 0.25


class Client(threading.Thread):
    """A client with boards of its own, one after the other."""

    def __init__(self, at, last):
        super().__init__(daemon=True)
        self.at, self.last = at, last
        # (a new number for each call; those of the clients don't meet)
        self.numbers = iter(range(1 + at * 10**9, (at + 1) * 10**9))
        self.caller, self.fault = Caller(PORT, PATIENCE), None
        self.asked, self.unanswered, self.slowest = 0, 0, 0
        self.wanted = collections.defaultdict(list)

    def run(self):
        try:
            while time.monotonic() < self.last:
                self.one_board()
        except Exception as fault:
            self.fault = f"client {self.at}: {type(fault).__name__} {fault}"
        finally:
            self.caller.disconnect()

    def ask(self, sent):
        """The body of the answer to a message, which is sent until it comes."""
        self.asked += 1
        last = time.monotonic() + PATIENCE
        while time.monotonic() < last:
            begun = time.monotonic()
            answer = self.caller.one_try(sent)
            if answer:
                self.slowest = max(self.slowest, time.monotonic() - begun)
                if status_of(answer) != 200:
                    raise ValueError(f"{sent[:60]}: {answer}")
                return body_of(answer)
            self.unanswered += 1
            time.sleep(0.02)
        raise ValueError(f"{sent[:60]}: no answer in {PATIENCE} seconds")

    def call(self, sent):
        """The answer to a call, which is sometimes sent again, and then answered the same."""
        first = self.ask(sent)
        if random.random() < 0.25 and self.ask(sent) != first:
            raise ValueError(f"{sent[:60]}: answered in two ways, first by {first}")
        return json.loads(first)

    def one_board(self):
        board = self.call(message(b"POST", b"/boards", b'{"title":"Soak"}', identified(next(self.numbers))))["board"]
        for _ in range(TASKS):
            if time.monotonic() > self.last:
                return
            number = next(self.numbers)
            self.wanted[board].append(description(number))
            task = self.call(adding(number, board))["uuid"]
            listed = self.ask(message(b"GET", b"/boards/%d/list" % board)).decode()
            if description(number) not in listed or f"\n1 of {len(self.wanted[board])} tasks" not in listed:
                raise ValueError(f"board {board} is listed as {listed}")
            self.call(message(b"POST", f"/boards/{board}/tasks/{task}/done".encode(), b"", identified(next(self.numbers))))
            time.sleep(random.uniform(0, 2 * REST))


def serve():
    return Server(PROGRAM, PORT, words=("--forever", "--growth", "0"), errors=subprocess.DEVNULL)


def kill_on(server, until):
    """Kills the server at moments up to this one, and starts it again; gives the last one, and how many were killed."""
    killed = 0
    while time.monotonic() < until:
        time.sleep(min(random.uniform(0, 2 * KILLED), max(until - time.monotonic(), 0)))
        server.end()
        server = serve()
        killed += 1
    return server, killed


def expect_all(clients):
    """Ends the test where a task is lost or doubled, or isn't completed; gives how many there are."""
    tasks, boards = 0, 1
    with serve() as server, server.connect(PATIENCE) as asking:
        resident = server.resident()
        for client in clients:
            for board, wanted in client.wanted.items():
                exported = json.loads(body_of(answer_to(asking, message(b"GET", b"/boards/%d/export" % board))))
                found = [task["description"] for task in exported if task["status"] == "completed"]
                if found != wanted or len(exported) != len(wanted):
                    sys.exit(f"board {board}: {len(exported)} tasks, {len(found)} completed, of {len(wanted)}")
                tasks, boards = tasks + len(wanted), boards + 1
    checked = subprocess.run([PROGRAM, "check", "b.db"], check=True, capture_output=True, text=True).stdout
    if checked != f"boards {boards} tasks {tasks} faults 0\n":
        sys.exit(f"check: {checked}")
    return tasks, boards, resident


def main():
    end_by_signal()
    make_file(PROGRAM)
    server, begun = serve(), time.monotonic()
    began = server.resident()
    clients = [Client(at, begun + 60 * MINUTES) for at in range(CLIENTS)]
    for client in clients:
        client.start()
    server, killed = kill_on(server, begun + 30 * MINUTES)
    middle = server.resident()
    for client in clients:
        client.join()
    end = server.resident()
    server.end()
    faults = [client.fault for client in clients if client.fault]
    if faults:
        sys.exit("\n".join(faults[:5]))
    tasks, boards, resident = expect_all(clients)
    asked, unanswered = sum(client.asked for client in clients), sum(client.unanswered for client in clients)
    slowest = max(client.slowest for client in clients)
    print(f"{CLIENTS} clients, {asked} messages, killed {killed} times, {unanswered} tries got no answer, the longest wait for one {slowest:.3f} s")
    print(f"{tasks} tasks on {boards - 1} boards are there once, each completed")
    print(f"memory at the beginning {began:.1f} MiB, behind the last kill {middle:.1f}, at the end {end:.1f}; of a new server over that file {resident:.1f}")
    if end > resident * (1 + SHARE) + MORE:
        sys.exit("the server has grown")


main()
