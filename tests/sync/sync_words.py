"""What bridges say where something is wrong, each in words and with what to do: sync_words.py PROGRAM PORT, in a folder of its own."""
import json
import os

from bridging import Editor, Server, expect
from sync_days import PROGRAM, PORT, Side, lines_of, run_here
from sync_lines import write

ADDRESS = f"127.0.0.1:{PORT}"


def expect_told(name, wanted, words, key="ann-key-1"):
    """A run of todotxt-sync that ends with 1 and says this, on one line."""
    os.environ["TASKBOARD_KEY"] = key
    said, status = run_here("todotxt-sync", *words)
    expect(f"{name}: {said}", (1, True, 1), (status, wanted in said, said.count("\n")))


def look_at_command_lines():
    """Names, keys, addresses and states that can't be used."""
    words = ("--state", "state.json", ADDRESS, "ann", "1", "todo.txt")
    expect_told("a key of two lines", "the key has to be visible ASCII characters on one line", words, "ann-key-1\nanother")
    expect_told("a name with a blank", "the name has to be visible ASCII", [word if word != "ann" else "a b" for word in words])
    expect_told("another key", "doesn't know this name with this key. Nothing more was changed", words, "ann-key-2")
    for address in ("127.0.0.1:99999", "[::1", "http://", "127.0.0.1:1/boards"):
        expect_told(address, "is no address: it has to be HOST:PORT, or https://HOST", [word if word != ADDRESS else address for word in words])
    expect_told("a key that isn't there", "No such file or directory. Write the key there", ["--key", "lacking", *words], "")
    expect_told("another board", "there is none on which you have a role. Ask an owner", [word if word != "1" else "77" for word in words])
    for state in ({"version": 1}, [], {"version": 1, "about": {}}):
        with open("state.json", "w") as file:
            json.dump(state, file)
        expect_told(f"the state {state}", "or no state at all: name another by --state", words)
    os.remove("state.json")
    expect_told("a folder in the file's place", "Is a directory. Nothing is lost: mend that, and run it again", [*words[:-1], os.getcwd()])
    Editor(PORT).ask("POST", "/people", {"name": "bob", "key": "bob-key-01"})
    Editor(PORT).ask("POST", "/boards/1/roles", {"member": "bob", "role": "reader"})
    expect_told("a reader", "a reader may change nothing. Ask an owner", [word if word != "ann" else "bob" for word in words], "bob-key-01")


def look_at_refusals():
    """What a board refuses is told briefly, with the reason and with what becomes of it."""
    side = Side("todotxt-sync", "UTC")
    write(side, f"Taken\nToo long {'x' * 17000}\nTagged @{'t' * 17000}\n".encode())
    said = side.run(side.path("todo.txt"), status=1)
    expect(f"refusals: {said}", (2, True, True), (said.count(": add: BadTask BadText (a text has over 16,384 bytes or the character 0)"),
           "what was refused stays where it is; it is tried anew once its task changes, or by --again" in said, all(len(line) < 250 for line in said.splitlines())))
    expect("the lines", 3, len(lines_of(side)))
    said = side.run(side.path("todo.txt"), status=1)
    expect(f"refused again: {said}", 2, said.count("as before (--again tries it anew)"))


def look_at_texts():
    """What would break or turn round a line isn't printed."""
    side = Side("todotxt-sync", "UTC")
    write(side, "One \u2028 two \u202e three \u2066 four\n".encode())
    said = side.run(side.path("todo.txt"))
    expect(f"a text: {said}", (2, False), (len(said.splitlines()), any(it in said for it in "\u2028\u202e\u2066")))


if __name__ == "__main__":
    server = Server(PROGRAM, PORT)
    try:
        look_at_command_lines()
        look_at_refusals()
        look_at_texts()
        print("faults of names, keys, addresses and states, refusals and strange texts are told in words")
    finally:
        server.end()
