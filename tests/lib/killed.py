"""A server of b.db that is killed and started again."""
import random
import subprocess
import time


class Server:
    def __init__(self, program, port):
        self.words = [program, "serve", "b.db", "--port", str(port), "--connections", "1000000"]
        self.killed = 0
        self.start()

    def start(self):
        self.process = subprocess.Popen(self.words, stderr=subprocess.DEVNULL)

    def kill(self):
        self.process.kill()
        self.process.wait()

    def kill_within(self, least, most):
        """Kills it at a random moment between these seconds from now, and starts it again."""
        time.sleep(random.uniform(least, most))
        self.kill()
        self.killed += 1
        self.start()
