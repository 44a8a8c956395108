"""`tb` over TLS: tls.py FOLDER PORT, in a folder with certificates; FOLDER has `tb` and `taskboard`. Servers listen on the port and above it."""
import contextlib
import glob
import json
import os
import pty
import random
import shlex
import signal
import socket
import subprocess
import sys
import threading
import time
import uuid

from connecting import free_port
from expecting import expecting
from fronting import Front
from listening import Listener
from talking import Server, make_file

BIN, PORT = sys.argv[1], int(sys.argv[2])
HERE = os.getcwd()
# One that other users may run too.
PYTHON = next(path for path in ("/usr/bin/python3", sys.executable) if os.path.exists(path))
HOME = os.path.join(HERE, "home")
# (A key that no other test of this machine has.)
KEY = f"key-{uuid.uuid4()}"
BARE = {name: value for name, value in os.environ.items() if not name.startswith(("TASKBOARD_", "SSL_"))} | {"HOME": HOME, "SSL_CERT_FILE": f"{HERE}/trusted.pem"}
SECURE = """    server {{
        listen 127.0.0.1:{port} ssl;
        server_name localhost;
        ssl_certificate {here}/{name}.pem;
        ssl_certificate_key {here}/{name}.key;
        location / {{ {location} }}
    }}
"""
# Answers for any other name, so that a message that names none of the server's is seen.
OTHERS = '    server {{ listen 127.0.0.1:{port} ssl default_server; ssl_certificate {here}/good.pem; ssl_certificate_key {here}/good.key; return 421; }}\n'
expect = expecting("tb over TLS")


class Nginx(Front):
    """A server of TLS for each certificate, in front of a port, and one that is no server of boards."""

    def __init__(self, upstream):
        self.ports = {name: free_port() for name in ("good", "expired", "foreign", "misnamed", "page")}
        passes = f"proxy_pass http://127.0.0.1:{upstream}; proxy_http_version 1.1; proxy_read_timeout 60s;"
        servers = "".join(SECURE.format(port=self.ports[name], here=HERE, name=name, location=passes) for name in ("good", "expired", "foreign", "misnamed"))
        servers += SECURE.format(port=self.ports["page"], here=HERE, name="good", location="default_type text/html; return 200 '<html>Welcome</html>';")
        servers += OTHERS.format(port=self.ports["good"], here=HERE)
        super().__init__(self.ports["good"], servers)

    def address(self, name="good"):
        return f"https://localhost:{self.ports[name]}"


def never():
    return False


class Watched(Listener):
    """What comes by on the way from nginx to the server, and which processes there are meanwhile."""

    def __init__(self, port):
        self.server_port, self.heard, self.processes, self.holds, self.loses = port, [], set(), None, never
        super().__init__()

    def serve(self, client):
        with client, contextlib.suppress(OSError), socket.create_connection(("127.0.0.1", self.server_port)) as server:
            threading.Thread(target=self.pass_back, args=(server, client), daemon=True).start()
            while sent := client.recv(65536):
                self.heard.append(sent)
                self.processes |= command_lines()
                holds, self.holds = self.holds, None
                if holds:
                    holds()
                server.sendall(sent)

    def pass_back(self, server, client):
        with contextlib.suppress(OSError):
            while answered := server.recv(65536):
                if self.loses():
                    client.shutdown(socket.SHUT_RDWR)
                    return
                client.sendall(answered)


def command_lines():
    """The command lines of all processes, as anybody sees them."""
    found = set()
    for path in glob.glob("/proc/[0-9]*/cmdline"):
        with contextlib.suppress(OSError), open(path, "rb") as file:
            found.add(file.read().replace(b"\0", b" ").decode("utf-8", "replace"))
    return found


def tb(*words, **more):
    return subprocess.run([f"{BIN}/tb", *words], capture_output=True, text=True, timeout=120, env=BARE | more, stdin=subprocess.DEVNULL)


def write(name, text, mode=0o600):
    os.makedirs(f"{HOME}/.config/taskboard", exist_ok=True)
    path = f"{HOME}/.config/taskboard/{name}"
    with open(path, "w") as file:
        file.write(text)
    os.chmod(path, mode)


def trusted(nginx, watched):
    """Words, imports and `send` by TLS do what they do without."""
    write("key", f"{KEY}\n")
    write("config", f"# whom to ask\nserver = {nginx.address()}\nname = ann\nboard = 1\n")
    ran = tb("add", "Buy", "milk", "pri:H")
    expect(f"add: {ran}", ran.returncode == 0 and "Buy milk" in ran.stdout and not ran.stderr)
    ran = tb()
    expect(f"the list: {ran}", ran.returncode == 0 and "Buy milk" in ran.stdout)
    ran = tb("done", "1")
    expect(f"done: {ran}", ran.returncode == 0)
    ran = tb("undo")
    expect(f"undo, of another run: {ran}", ran.returncode == 0 and "Taken back" in ran.stdout)
    ran = tb("send", nginx.address(), "ann", "-", "export", "1")
    expect(f"send: {ran}", ran.returncode == 0 and json.loads(ran.stdout)[0]["status"] == "pending")
    ran = tb("list", TASKBOARD_SERVER=nginx.address(), TASKBOARD_BOARD="board")
    expect(f"by the environment: {ran}", ran.returncode == 0 and "Buy milk" in ran.stdout)
    ran = tb("list", TASKBOARD_NAME="bob")
    expect(f"another's name: {ran}", ran.returncode == 1 and "knows nobody" in ran.stderr)
    expect("messages came", any(KEY.encode() in sent for sent in watched.heard))
    expect("no key is seen among the processes", watched.processes and not [line for line in watched.processes if KEY in line])


def typed(answers, home):
    """What `tb setup` shows on a terminal where these answers are typed, one after each question, and what it ends with."""
    process, terminal = pty.fork()
    if process == 0:
        os.execve(f"{BIN}/tb", ["tb", "setup"], BARE | {"HOME": home})
    shown = b""
    with contextlib.suppress(OSError):
        while part := os.read(terminal, 65536):
            shown += part
            if shown.endswith(b": ") and answers:
                os.write(terminal, f"{answers.pop(0)}\n".encode())
    os.close(terminal)
    return os.waitstatus_to_exitcode(os.waitpid(process, 0)[1]), shown.decode()


def setup(nginx):
    """The settings are asked for, tried at the server before they are written, and the key isn't shown."""
    home, config = f"{HERE}/fresh", f"{HERE}/fresh/.config/taskboard/config"
    os.makedirs(home)
    status, shown = typed([nginx.address(), "ann", "wrong-key-1"], home)
    expect(f"a wrong key: {status}, {shown}", status == 1 and "doesn't know this name with this key" in shown and not os.path.exists(config))
    status, shown = typed([nginx.address("expired"), "ann", KEY], home)
    expect(f"an expired certificate: {status}, {shown}", status == 1 and "isn't trusted" in shown and not os.path.exists(config))
    status, shown = typed([nginx.address(), "ann", "\x03"], home)
    expect(f"an interruption: {status}, {shown}", status == 1 and "nothing was written" in shown and not os.path.exists(config))
    status, shown = typed([nginx.address(), "ann", KEY, "Nowhere"], home)
    expect(f"no such board: {status}, {shown}", status == 1 and "none of your boards has the number or the title Nowhere" in shown and not os.path.exists(config))
    status, shown = typed([nginx.address(), "ann", KEY, "board"], home)
    expect(f"setup: {status}, {shown}", status == 0 and KEY not in shown and "1  board" in shown)
    with open(config) as file:
        expect("what is written", file.read() == f"server = {nginx.address()}\nname = ann\nboard = board\n")
    expect("for their owner alone", {os.stat(path).st_mode & 0o777 for path in glob.glob(f"{home}/.config/taskboard/*")} == {0o600})
    expect("the settings", "Buy milk" in tb("list", HOME=home).stdout)
    with open(config, "a") as file:
        file.write("# mine\n")
    status, shown = typed(["", "", "", "1"], home)
    expect(f"what was before: {status}, {shown}", status == 0 and f"[{nginx.address()}]" in shown and "[board]" in shown)
    with open(config) as file:
        expect("another board", file.read() == f"# mine\nserver = {nginx.address()}\nname = ann\nboard = 1\n")
    ran = subprocess.run([f"{BIN}/tb", "setup"], input=f"http://127.0.0.1:{PORT}/\nann\n", capture_output=True, text=True, env=BARE | {"HOME": home}, timeout=60)
    expect(f"another scheme: {ran}", ran.returncode == 1 and "without http://" in ran.stderr)
    with open(config, "rb") as file:
        kept = file.read()
    for answers, told in ((("", "ann", KEY, "99"), "has the number or the title 99"), (("127.0.0.1",), "has no port"), (("127.0.0.1:1", "Ann"), "a name has 1 to 32")):
        ran = subprocess.run([f"{BIN}/tb", "setup"], input="".join(f"{it}\n" for it in answers), capture_output=True, text=True, env=BARE | {"HOME": home}, timeout=60)
        with open(config, "rb") as file:
            expect(f"{answers} in setup: {ran}", ran.returncode == 1 and told in ran.stderr and file.read() == kept)


def untrusted(nginx, watched):
    """Nothing is sent to a server that isn't trusted, isn't there, or isn't one of boards."""
    for name, told in (("expired", "certificate has expired"), ("foreign", "unable to get local issuer certificate"), ("misnamed", "certificate is not valid for 'localhost'")):
        before = len(watched.heard)
        for words in (("list",), ("add", "secret"), ("send", nginx.address(name), "ann", "-", "list", "1")):
            ran = tb(*words, TASKBOARD_SERVER=nginx.address(name))
            expect(f"{name}, {words}: {ran}", ran.returncode == 1 and not ran.stdout and "isn't trusted: " in ran.stderr and told in ran.stderr and "Nothing was sent" in ran.stderr)
        expect(f"{name}: nothing came", len(watched.heard) == before)
    ran = tb("list", SSL_CERT_FILE=f"{HERE}/another.pem")
    expect(f"by another authority: {ran}", ran.returncode == 1 and "isn't trusted" in ran.stderr)
    ran = tb("list", TASKBOARD_SERVER=f"https://localhost:{PORT}")
    expect(f"a server without TLS: {ran}", ran.returncode == 1 and "speaks no TLS that is safe" in ran.stderr)
    ran = tb("list", TASKBOARD_SERVER=f"https://localhost:{free_port()}")
    expect(f"no server: {ran}", ran.returncode == 1 and "can't be reached: Connection refused. Nothing was sent" in ran.stderr)
    ran = tb("list", TASKBOARD_SERVER="https://no.such.host.invalid")
    expect(f"no such name: {ran}", ran.returncode == 1 and "https://no.such.host.invalid can't be reached" in ran.stderr)
    for words in (("list",), ("export",), ("add", "Buy", "milk"), ("send", nginx.address("page"), "ann", "-", "me")):
        ran = tb(*words, TASKBOARD_SERVER=nginx.address("page"))
        expect(f"no server of boards: {ran}", ran.returncode == 1 and not ran.stdout and "answers 200 with something that no server of boards says" in ran.stderr)
    ran = tb("--help", TASKBOARD_SERVER=nginx.address("expired"))
    expect(f"help asks no server: {ran}", ran.returncode == 0 and not ran.stderr)


def lost(nginx, watched):
    """A call that gets no answer says how to send it again by TLS, and acts once."""
    watched.loses = lambda: True
    ran = tb("send", "--for", "1", nginx.address(), "ann", "-", "add", "1", "Sow", "peas")
    watched.loses = never
    line = ran.stderr.splitlines()[-1]
    expect(f"no answer: {ran}", ran.returncode == 1 and line.startswith("tb send --id ") and nginx.address() in line and "127." not in ran.stderr)
    again = tb(*shlex.split(line.replace("KEY", "-"))[1:])
    expect(f"{line}: {again}", again.returncode == 0)
    tasks = json.loads(tb("send", nginx.address(), "ann", "-", "export", "1").stdout)
    expect("it acts once", [task["description"] for task in tasks].count("Sow peas") == 1)


def cut(watched):
    """Half of all answers are lost on their way: each task is added once."""
    draw = random.Random(11)
    watched.loses = lambda: draw.random() < 0.5
    for number in range(10):
        ran = tb("add", "cut", str(number))
        expect(f"a line that cuts: {ran}", ran.returncode == 0)
    watched.loses = never
    tasks = json.loads(tb("export").stdout)
    expect("each once", sorted(task["description"] for task in tasks if task["description"].startswith("cut ")) == [f"cut {number}" for number in range(10)])


def silent(nginx, watched):
    """A command that gives up while the server is silent ends at once."""
    held = Held(watched, "send", "--for", "1", nginx.address(), "ann", "-", "list", "1")
    out, errors = held.process.communicate(timeout=50)
    expect(f"a silent server: {out}, {errors}", held.process.returncode == 1 and "NoAnswer" in errors)
    held.go()


def listeners(process):
    """Where a process listens."""
    sockets = {os.readlink(path) for path in glob.glob(f"/proc/{process.pid}/fd/*") if os.path.lexists(path)}
    with open("/proc/net/tcp") as file:
        rows = [line.split() for line in file][1:]
    return [(socket.inet_ntoa(bytes.fromhex(row[1][:8])[::-1]), int(row[1][9:], 16)) for row in rows if row[3] == "0A" and f"socket:[{row[9]}]" in sockets]


class Held:
    """A command whose message waits on its way to the server, and where its program dials."""

    def __init__(self, watched, *words):
        went, go = threading.Event(), threading.Event()
        watched.holds = lambda: went.set() or go.wait(60)
        self.go = go.set
        self.process = subprocess.Popen([f"{BIN}/tb", *words], env=BARE, stdin=subprocess.DEVNULL, stdout=subprocess.PIPE, stderr=subprocess.PIPE, text=True)
        expect(f"{words} is asked for", went.wait(60))
        (self.place,) = listeners(self.process)

    def end(self):
        """What the command ends with, once its message goes on."""
        self.go()
        out, errors = self.process.communicate(timeout=60)
        return self.process.returncode, out, errors


def shut(watched):
    """While a command runs no other user listens at its port, nor is served there; the program keeps the port when the tunnel is killed, and
    ends with a signal as it does without."""
    held = Held(watched, "list")
    as_another("another user takes the port", TAKES.format(place=held.place), "taken")
    as_another("another user is served", ASKS.format(place=held.place), "no answer")
    other = tb("boards", TASKBOARD_BOARD="1")
    expect(f"a second command meanwhile: {other}", other.returncode == 0)
    status, out, errors = held.end()
    expect(f"the command: {status}, {out}, {errors}", status == 0 and "Buy milk" in out)
    with contextlib.suppress(ConnectionRefusedError):
        socket.create_connection(held.place, timeout=20).close()
        sys.exit("tb over TLS: somebody listens where a command did that has ended")
    held = Held(watched, "list")
    with open(f"/proc/{held.process.pid}/task/{held.process.pid}/children") as file:
        (program,) = map(int, file.read().split())
    held.process.kill()
    held.process.wait()
    as_another("another user takes the port of a killed tunnel", TAKES.format(place=held.place), "taken")
    os.kill(program, signal.SIGKILL)
    held.end()
    held = Held(watched, "list")
    held.process.send_signal(signal.SIGTERM)
    expect("a command that is ended", held.end()[0] == -signal.SIGTERM)


TAKES = """import socket
for options in ((), (socket.SO_REUSEADDR,), (socket.SO_REUSEPORT,), (socket.SO_REUSEADDR, socket.SO_REUSEPORT)):
    for host in ({place[0]!r}, "0.0.0.0", "::"):
        try:
            listener = socket.socket(socket.AF_INET6 if ":" in host else socket.AF_INET)
            for option in options:
                listener.setsockopt(socket.SOL_SOCKET, option, 1)
            listener.bind((host, {place[1]}))
            listener.listen()
            print("listens on", host, options)
        except OSError:
            pass
print("taken")
"""
ASKS = """import socket
try:
    asking = socket.create_connection({place!r}, timeout=20)
    asking.sendall(b"GET /me HTTP/1.1\\r\\nhost: a\\r\\n\\r\\n")
    print(asking.recv(100).decode() or "no answer")
except ConnectionResetError:
    print("no answer")
"""


def as_another(what, script, wanted):
    """Runs a script as nobody, which root alone may."""
    if os.geteuid():
        return
    ran = subprocess.run([PYTHON, "-I", "-c", script], capture_output=True, text=True, user=65534, group=65534, extra_groups=[], timeout=60, cwd="/")
    expect(f"{what}: {ran}", ran.stdout.strip() == wanted)


def main():
    begun = time.monotonic()
    make_file(f"{BIN}/taskboard")
    subprocess.run([f"{BIN}/taskboard", "key", "b.db", "ann", "-"], input=f"{KEY}\n", text=True, check=True, stdout=subprocess.DEVNULL)
    with Server(f"{BIN}/taskboard", PORT, words=("--forever",), errors=subprocess.DEVNULL):
        watched = Watched(PORT)
        with Nginx(watched.port) as nginx:
            trusted(nginx, watched)
            untrusted(nginx, watched)
            setup(nginx)
            lost(nginx, watched)
            cut(watched)
            silent(nginx, watched)
            shut(watched)
    print(f"tb over TLS in {time.monotonic() - begun:.0f} s")


main()
