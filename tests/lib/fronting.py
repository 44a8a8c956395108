"""A real nginx in the folder of a test, in front of a server."""
import os
import subprocess

from connecting import connected

MAIN = """pid {here}/nginx.pid;
error_log {here}/errors;
{before}
events {{}}
http {{
    access_log off;
    client_body_temp_path {here}/temporary;
    proxy_temp_path {here}/temporary;
    fastcgi_temp_path {here}/temporary;
    uwsgi_temp_path {here}/temporary;
    scgi_temp_path {here}/temporary;
{servers}}}
"""


class Front:
    """nginx with these servers. In a `with` it runs, and listens on the port."""

    def __init__(self, port, servers, before=""):
        self.port, self.words, self.process = port, ["nginx", "-c", os.path.abspath("nginx.conf")], None
        with open("nginx.conf", "w") as file:
            file.write(MAIN.format(here=os.getcwd(), before=before, servers=servers))

    def fault(self):
        """What nginx says against its configuration; nothing where that is good."""
        tried = subprocess.run([*self.words, "-t"], capture_output=True, text=True)
        return tried.stderr if tried.returncode else ""

    def __enter__(self):
        self.process = subprocess.Popen([*self.words, "-g", "daemon off;"], stderr=subprocess.DEVNULL)
        connected(self.port, 10).close()
        return self

    def __exit__(self, *_):
        self.process.terminate()
        self.process.wait()
