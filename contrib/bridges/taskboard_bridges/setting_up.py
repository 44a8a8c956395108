"""Asks for the settings of `tb`, tries them at the server, and writes them for their owner alone. Nothing else is kept."""
from __future__ import annotations

import getpass
import os
import re
import signal
import stat
import sys

from taskboard_bridges.asking import Boards, read_key
from taskboard_bridges.fault import Fault
from taskboard_bridges.keeping import replace_file
from taskboard_bridges.places import place_of

FOLDER = "~/.config/taskboard"
LINE = re.compile(r"(server|name|board|key-file)[ \t]*=[ \t]*(.*)")
NAME = re.compile(r"[a-z0-9_-]{1,32}")
KEY = re.compile(r"[!-~]{8,64}")
# How many seconds the server may be away.
PATIENCE = 5


class Settings:
    """What the file of the settings says, and its notes."""

    def __init__(self, path: str) -> None:
        self.path, self.values, self.notes = path, {}, []
        for line in self.text().splitlines():
            line = line.strip()
            found = LINE.fullmatch(line)
            if found:
                self.values[found[1]] = found[2]
            elif line.startswith("#"):
                self.notes.append(line)

    def text(self) -> str:
        """The text of the file; none where there is no file."""
        try:
            with open(self.path, encoding="utf-8") as file:
                if stat.S_IMODE(os.fstat(file.fileno()).st_mode) & 0o077:
                    raise Fault(f"others may read or write {self.path}: chmod 600 {self.path}")
                return file.read()
        except FileNotFoundError:
            return ""
        except (OSError, UnicodeDecodeError) as fault:
            raise Fault(f"{self.path} can't be read: {fault}") from None

    def get(self, name: str) -> str:
        """What a setting was before."""
        return self.values.get(name, "")

    def key_path(self) -> str:
        """Where the key is."""
        return os.path.expanduser(self.get("key-file") or f"{FOLDER}/key")

    def written(self, server: str, name: str, board: str) -> bytes:
        """The file with other values: its notes stay, and where the key is."""
        kept = {"key-file": self.get("key-file"), "server": server, "name": name, "board": board}
        return "".join(f"{line}\n" for line in [*self.notes, *(f"{it} = {value}" for it, value in kept.items() if value)]).encode()


def ask(question: str, before: str) -> str:
    """The answer to a question; what was before where there is none."""
    print(f"{question}{f' [{before}]' if before else ''}: ", end="", file=sys.stderr, flush=True)
    line = sys.stdin.readline()
    if not line:
        raise Fault("there is no more to read. Nothing was written")
    return line.strip() or before


def ask_key(path: str) -> str:
    """The key, which isn't shown while it is typed; the one that is kept where none is typed."""
    question = f"Your key, which isn't shown{', or nothing for the one that is kept' if os.path.exists(path) else ''}: "
    if sys.stdin.isatty():
        key = getpass.getpass(question).strip()
    else:
        print(question, end="", file=sys.stderr, flush=True)
        key = sys.stdin.readline().strip()
    key = key or read_key(path)
    if not KEY.fullmatch(key):
        raise Fault("a key has 8 to 64 visible ASCII characters. Nothing was written")
    return key


def ask_server(before: str) -> str:
    """The server, where it has a form that `tb` takes."""
    server = ask("Server, as https://boards.example.org or 127.0.0.1:8080", before)
    if not server:
        raise Fault("no server was named. Nothing was written")
    if server.startswith("http://"):
        raise Fault(f"without TLS write the server as 127.0.0.1:8080, without http:// and what follows the port, and not {server}. Nothing was written")
    place = place_of(server)
    if not place.is_secure and not re.fullmatch(r"[^/]+:[0-9]+", server):
        raise Fault(f"{server} has no port, as 127.0.0.1:8080 has. Nothing was written")
    return server


def ask_board(boards: list[dict[str, object]], before: str) -> str:
    """The board that `tb` asks of, by its number or its title; none where none is named."""
    for it in boards:
        print(f"  {it['board']}  {it['title']}", file=sys.stderr)
    board = ask("Board, by its number or title, or nothing", before) if boards else ""
    found = [it for it in boards if board in (str(it["board"]), it["title"])]
    if board and not found:
        raise Fault(f"none of your boards has the number or the title {board}. Nothing was written")
    if len(found) > 1 and not any(str(it["board"]) == board for it in found):
        raise Fault(f"several of your boards have the title {board}: give a number. Nothing was written")
    return board


def set_up() -> None:
    """Asks for all settings and writes them, if the server knows them."""
    folder = os.path.expanduser(FOLDER)
    before = Settings(os.path.join(folder, "config"))
    server = ask_server(before.get("server"))
    name = ask("Your name there", before.get("name"))
    if not NAME.fullmatch(name):
        raise Fault("a name has 1 to 32 of a to z, 0 to 9, _ and -. Nothing was written")
    path = before.key_path()
    key = ask_key(path)
    boards = Boards(server, name, key, PATIENCE).me()
    board = ask_board(boards, before.get("board"))
    os.makedirs(folder, mode=0o700, exist_ok=True)
    replace_file(path, f"{key}\n".encode(), 0o600)
    replace_file(before.path, before.written(server, name, board), 0o600)
    print(f"Written: {FOLDER}/config. {server} knows you. Try it: tb boards")


def main(_words: list[str]) -> None:
    """Ends with 1 where nothing was written. Where it is interrupted the terminal shows again what is typed."""
    signal.signal(signal.SIGINT, signal.default_int_handler)
    try:
        set_up()
    except Fault as fault:
        sys.exit(f"tb: {fault}.")
    except OSError as fault:
        sys.exit(f"tb: {fault.filename or 'the system'}: {fault.strerror}.")
    except KeyboardInterrupt:
        sys.exit("\ntb: nothing was written.")
