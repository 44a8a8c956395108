"""Opens a page in a real browser that asks the server six things at once: python3 browser.py BROWSER PROGRAM PORT SECONDS, in a folder that it may write to.

The page comes from a server of this helper, and brings its answers back to it. The browser is told to let a page ask other servers too."""
import contextlib
import http.server
import json
import os
import pathlib
import queue
import signal
import subprocess
import sys
import threading

from talking import Server, description, expect_each_once, make_file

BROWSER, PROGRAM, PORT, LONGEST = sys.argv[1], sys.argv[2], int(sys.argv[3]), float(sys.argv[4])
PAGE = (pathlib.Path(__file__).parent / "browser.html").read_bytes()
ROUNDS = 8
# How long the browser may take with all of it, in seconds.
PATIENCE = 20
VIEWS = {"/boards/1/list": 2, "/boards/1/todo": 1, "/boards/1/export": 2, "/boards/1/tasks/00000001-0000-8000-8000-000000000006": 1}
came = queue.Queue()


class Helper(http.server.BaseHTTPRequestHandler):
    """Gives the page, and takes what it brings back."""

    def do_GET(self):
        is_page = self.path.startswith("/page")
        self.send_response(200 if is_page else 404)
        self.send_header("content-type", "text/html")
        self.end_headers()
        self.wfile.write(PAGE if is_page else b"")

    def do_POST(self):
        came.put(json.loads(self.rfile.read(int(self.headers["content-length"]))))
        self.send_response(204)
        self.end_headers()

    def log_message(self, *_):
        pass


def open_page(address):
    """Has the browser open the page, and gives what the page brought back."""
    words = ["--headless", "--no-sandbox", "--disable-gpu", "--disable-dev-shm-usage", "--no-first-run", "--disable-web-security", "--user-data-dir=profile"]
    with open("browser.log", "w") as log:
        browser = subprocess.Popen([BROWSER, *words, address], stdin=subprocess.DEVNULL, stdout=log, stderr=log, start_new_session=True)
    try:
        return came.get(timeout=PATIENCE)
    except queue.Empty:
        with open("browser.log") as log:
            sys.exit(f"the page brought nothing in {PATIENCE} seconds:\n{log.read()[-2000:]}")
    finally:
        browser.terminate()
        with contextlib.suppress(subprocess.TimeoutExpired):
            browser.wait(timeout=5)
        with contextlib.suppress(ProcessLookupError):
            os.killpg(browser.pid, signal.SIGKILL)
        browser.wait()


def judge(answers):
    """Ends the test where an answer lacks, is another than it has to be, or came late; gives the longest wait."""
    refused = [answer for answer in answers if answer["status"] != 200]
    if refused:
        sys.exit(f"answers: {refused}")
    asked = {f"add {number}": 2 for number in range(1, 7)} | {view: times * ROUNDS for view, times in VIEWS.items()}
    texts = {name: [answer["text"] for answer in answers if answer["name"] == name] for name in asked}
    counts = {name: len(found) for name, found in texts.items()}
    if counts != asked or len(answers) != sum(asked.values()):
        sys.exit(f"answers came so often: {counts}")
    # Nothing changes behind the adds, so what is asked again is answered the same.
    unlike = [name for name, found in texts.items() if len(set(found)) != 1]
    if unlike:
        sys.exit(f"answered in more ways than one: {unlike}")
    shown = sorted(task["description"] for task in json.loads(texts["/boards/1/export"][0]))
    if shown != [description(number) for number in range(1, 7)]:
        sys.exit(f"the page was shown {shown}")
    worst = max(answer["waited"] for answer in answers) / 1000
    if worst > LONGEST:
        sys.exit(f"an answer came after {worst:.2f} s")
    return worst


make_file(PROGRAM)
helper = http.server.ThreadingHTTPServer(("127.0.0.1", 0), Helper)
threading.Thread(target=helper.serve_forever, daemon=True).start()
with Server(PROGRAM, PORT, errors=subprocess.DEVNULL) as server:
    answers = open_page(f"http://127.0.0.1:{helper.server_port}/page?port={PORT}&rounds={ROUNDS}")
worst = judge(answers)
expect_each_once(PROGRAM, range(1, 7))
print(f"a page in a browser: {len(answers) // 6} times six answers at once, six tasks once each, the longest wait {worst:.3f} s")
