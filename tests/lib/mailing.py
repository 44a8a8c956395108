"""A mail server of a test's own (RFC 5321, with STARTTLS where it has a certificate), which can stop who sends at each of its steps."""
import contextlib
import email
import email.policy
import ssl

from listening import Listener

# At which step who sends is killed. From "DATA" to "end" the mail may have gone or not, for all that the sender knows.
STEPS = ("connect", "EHLO", "MAIL", "RCPT", "DATA", "body", "end", "QUIT")


class MailServer(Listener):
    """Listens on a port of its own. `accepted` are the mails that it took, `refused` the addresses that it refuses."""

    def __init__(self, certificate=None):
        self.accepted, self.refused, self.secure, self.logins = [], set(), 0, 0
        self.kill, self.at = None, None
        self.context = None
        if certificate:
            self.context = ssl.SSLContext(ssl.PROTOCOL_TLS_SERVER)
            self.context.load_cert_chain(*certificate)
        super().__init__()

    def stop_at(self, step, kill):
        self.at, self.kill = step, kill

    def reached(self, step):
        """Kills who sends at the step that was asked for."""
        if step == self.at:
            self.at = None
            self.kill()
            return True
        return False

    def serve(self, client):
        with contextlib.suppress(OSError), contextlib.closing(client):
            if not self.reached("connect"):
                client.sendall(b"220 here\r\n")
                self.talk(client, client.makefile("rb"))

    def talk(self, client, lines):
        to = []
        while line := lines.readline().decode().strip():
            word = line.split(" ")[0].upper()
            if self.reached(word):
                return
            if word == "EHLO":
                more = ["250-STARTTLS"] if self.context and not isinstance(client, ssl.SSLSocket) else []
                client.sendall("\r\n".join(["250-here", *more, "250-AUTH PLAIN", "250 8BITMIME", ""]).encode())
            elif word == "STARTTLS":
                client.sendall(b"220 go on\r\n")
                client = self.context.wrap_socket(client, server_side=True)
                lines, self.secure = client.makefile("rb"), self.secure + 1
            elif word == "AUTH":
                self.logins += 1
                client.sendall(b"235 yes\r\n")
            elif word == "RCPT":
                address = line.partition("<")[2].partition(">")[0]
                to.append(address)
                client.sendall(b"550 nobody\r\n" if address in self.refused else b"250 ok\r\n")
            elif word == "DATA":
                client.sendall(b"354 go on\r\n")
                if self.reached("body") or not self.take(lines, to) or self.reached("end"):
                    return
                client.sendall(b"250 taken\r\n")
            elif word == "QUIT":
                client.sendall(b"221 bye\r\n")
                return
            else:
                client.sendall(b"250 ok\r\n")

    def take(self, lines, to):
        """Whether a mail came whole; it counts as accepted from then on."""
        data = b""
        while (line := lines.readline()) != b".\r\n":
            if not line:
                return False
            data += line[1:] if line.startswith(b".") else line
        self.accepted.append((to, email.message_from_bytes(data, policy=email.policy.default)))
        return True
