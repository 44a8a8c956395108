"""A line that breaks, in the place of ssh: cutting.py CONTROL -- HOST COMMAND. It runs the command here, and passes on what goes in and out.

CONTROL is a JSON file, read at the beginning: behind `cut` bytes, both ways together, the line is cut and the command killed; files of the
command may not grow beyond `size` bytes. The process ids of the line and its command are in CONTROL.ids."""
import json
import os
import resource
import selectors
import subprocess
import sys

control, command = sys.argv[1], sys.argv[4]
with open(control) as file:
    ways = json.load(file)


def limit():
    if ways.get("size") is not None:
        resource.setrlimit(resource.RLIMIT_FSIZE, (ways["size"], resource.RLIM_INFINITY))


child = subprocess.Popen(["sh", "-c", "exec " + command], stdin=subprocess.PIPE, stdout=subprocess.PIPE, preexec_fn=limit)
with open(control + ".new", "w") as file:
    file.write(f"{os.getpid()} {child.pid}")
os.replace(control + ".new", control + ".ids")
left = ways.get("cut")
selector = selectors.DefaultSelector()
selector.register(0, selectors.EVENT_READ, child.stdin.fileno())
selector.register(child.stdout.fileno(), selectors.EVENT_READ, 1)
try:
    while left is None or left > 0:
        for key, _ in selector.select():
            piece = os.read(key.fd, 65536 if left is None else min(65536, left))
            if not piece:
                sys.exit()
            left = None if left is None else left - len(piece)
            while piece:
                piece = piece[os.write(key.data, piece) :]
            if left == 0:
                break
finally:
    child.kill()
    child.wait()
