"""The configuration of taskboard-remind, which is read once. Nothing is kept here."""
import configparser
import os
import re

from taskboard_bridges.asking import Boards, read_key
from taskboard_bridges.days import zone_named
from taskboard_bridges.fault import Fault

ADDRESS = re.compile(r"[ -~]+")
KNOWN = {
    "boards": ("address", "member", "key", "page", "boards", "zone", "state", "cacert"),
    "mail": ("from", "sendmail", "smtp", "tls", "user", "password", "cacert"),
    "calendar": ("folder", "address"),
    "people": None,
}


class Settings:
    """What the file says; what it may leave out has its usual value here."""

    def __init__(self, path):
        parser = configparser.ConfigParser(interpolation=None, delimiters=("=",), inline_comment_prefixes=("#",))
        try:
            with open(path, encoding="utf-8") as file:
                parser.read_file(file)
        except (OSError, ValueError, configparser.Error) as fault:
            raise Fault(f"{path} can't be read: {fault}") from None
        self.path, self.parser = path, parser
        self.check_names()
        boards = parser["boards"]
        self.member, self.page = self.need("boards", "member"), boards.get("page", "")
        self.zone = self.read_zone(boards.get("zone", "UTC"))
        self.state = boards.get("state") or os.path.join(os.environ.get("STATE_DIRECTORY", "/var/lib/taskboard-remind"), "state.json")
        self.chosen = self.numbers(boards["boards"]) if "boards" in boards else None
        self.people = dict(parser["people"]) if parser.has_section("people") else {}
        self.mail = dict(parser["mail"]) if parser.has_section("mail") else {}
        self.check_addresses()
        self.calendar = dict(parser["calendar"]) if parser.has_section("calendar") else {}

    def fault(self, text):
        """A fault of the file, with its name."""
        return Fault(f"{self.path}: {text}")

    def check_names(self):
        """Refuses sections and names that aren't known."""
        for section in self.parser.sections():
            if section not in KNOWN:
                raise self.fault(f"[{section}] isn't known: there are {', '.join(f'[{name}]' for name in KNOWN)}")
            for name in self.parser[section]:
                known = KNOWN[section]
                if known and name not in known:
                    raise self.fault(f"{name} isn't known in [{section}]: there are {', '.join(known)}")
        if not self.parser.has_section("boards"):
            raise self.fault("[boards] is missing")

    def check_addresses(self):
        """Refuses addresses of mail that no mail can have."""
        for name, address in {**self.people, **({"from": self.mail["from"]} if "from" in self.mail else {})}.items():
            if not ADDRESS.fullmatch(address):
                raise self.fault(f"{name} has to be an address of mail on one line, and is {address}")

    def need(self, section, name):
        """A setting that has to be there."""
        if not self.parser.has_section(section) or not self.parser[section].get(name):
            raise self.fault(f"{name} is missing in [{section}]")
        return self.parser[section][name]

    def read_zone(self, name):
        """The time zone of a name."""
        try:
            return zone_named(name)
        except Fault as fault:
            raise self.fault(fault) from None

    def numbers(self, text):
        """The numbers of boards in a text."""
        words = text.replace(",", " ").split()
        if not all(word.isascii() and word.isdigit() for word in words):
            raise self.fault(f"boards has to be numbers of boards, and is {text}")
        return {int(word) for word in words}

    def server(self):
        """The boards' server, as the member of the settings."""
        section = self.parser["boards"]
        return Boards(self.need("boards", "address"), self.member, read_key(self.need("boards", "key")), authority=section.get("cacert"))
