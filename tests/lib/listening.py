"""A server of a test's own on the loopback."""
import socket
import threading


class Listener:
    """Listens on this port, or on a free one, and has `serve` meet each client. Its own members have to be there first: clients may come at once."""

    # Whether clients are served side by side, or each once the one before it was.
    at_once = True

    def __init__(self, port=0):
        self.listener = socket.create_server(("127.0.0.1", port))
        self.port = self.listener.getsockname()[1]
        threading.Thread(target=self.listen, daemon=True).start()

    def listen(self):
        while True:
            client, _ = self.listener.accept()
            if self.at_once:
                threading.Thread(target=self.serve, args=(client,), daemon=True).start()
            else:
                self.serve(client)
