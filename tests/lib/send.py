"""Sends one message to a server on the loopback, and prints the body of its answer: send.py PORT METHOD TARGET [BODY] [NAME:VALUE ..]

The server may still be starting: a connection is tried for 30 seconds."""
import http.client
import sys

from connecting import connected

port, method, target = int(sys.argv[1]), sys.argv[2], sys.argv[3]
body = sys.argv[4] if len(sys.argv) > 4 else ""
fields = dict(word.split(":", 1) for word in sys.argv[5:])

connection = http.client.HTTPConnection("127.0.0.1", port)
connection.sock = connected(port, 10)
connection.request(method, target, body or None, fields)
print(connection.getresponse().read().decode())
