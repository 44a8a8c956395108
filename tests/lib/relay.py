"""A line between a browser and a server that a test breaks: it passes bytes on, or loses messages, or their answers."""
import contextlib
import socket
import threading

from listening import Listener

# What becomes of a POST and of its answer.
PASSES, LOSES_POSTS, LOSES_ANSWERS = range(3)


class Relay(Listener):
    """Listens on a port of its own, and passes on to the server's port. `asked` has the method and the path of each message that came."""

    def __init__(self, port):
        self.server_port, self.mode = port, PASSES
        self.lost = threading.Event()
        self.asked = []
        super().__init__()

    def break_off(self, mode):
        """From now on POSTs are lost, or their answers; `lost` tells of the first."""
        self.lost.clear()
        self.mode = mode

    def heal(self):
        self.mode = PASSES

    def serve(self, client):
        with client, contextlib.suppress(OSError):
            with socket.create_connection(("127.0.0.1", self.server_port)) as server:
                state = {"loses": False}
                back = threading.Thread(target=self.pass_back, args=(server, client, state), daemon=True)
                back.start()
                self.pass_on(client, server, state)
                back.join(timeout=5)

    def pass_on(self, client, server, state):
        with contextlib.suppress(OSError):
            while sent := client.recv(65536):
                self.asked += [tuple(words[:2]) for words in [sent[:200].decode("latin-1").split(" ")] if words[0] in ("GET", "HEAD", "POST")]
                if sent.startswith(b"POST ") and self.mode == LOSES_POSTS:
                    self.lost.set()
                    break
                state["loses"] = state["loses"] or (sent.startswith(b"POST ") and self.mode == LOSES_ANSWERS)
                server.sendall(sent)
        end(server)

    def pass_back(self, server, client, state):
        with contextlib.suppress(OSError):
            while answered := server.recv(65536):
                if state["loses"]:
                    # From here on the server isn't there for any POST, so that the browser's own second try is lost too.
                    self.mode = LOSES_POSTS
                    self.lost.set()
                    break
                client.sendall(answered)
        end(client)


def end(connection):
    with contextlib.suppress(OSError):
        connection.shutdown(socket.SHUT_RDWR)
