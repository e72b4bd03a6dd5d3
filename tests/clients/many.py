"""Several caches behind nginx, by the files of share/; and what compiles through a cache."""
import contextlib
import os
import re
import shutil
import signal
import socket
import subprocess
import sys
import tempfile

from servers import Asked, Cache
from shared import SECONDS, TOP, check, wait_until
sys.path.insert(1, os.path.join(TOP, "bench"))
from cache_servers import free_port, front_words

SHARE = os.path.join(TOP, "share")
KEYS = 400


class Nginx(Asked):
    """nginx with the configuration of share/, for caches at other ports."""

    def __init__(self, place, ports):
        self.place, self.port = place, free_port()
        self.process = subprocess.Popen(front_words(place, self.port, ports))
        if not wait_until(lambda: self.ask("GET", "/healthz")[0] == 200):
            raise ValueError("nginx doesn't start")

    def workers(self):
        with open(f"/proc/{self.process.pid}/task/{self.process.pid}/children", encoding="ascii") as file:
            return {*file.read().split()}

    def change(self, ports):
        """Reads the configuration for other ports, and waits until no process has the one before."""
        front_words(self.place, self.port, ports)
        before = self.workers()
        self.process.send_signal(signal.SIGHUP)
        check((wait_until(lambda: not before & self.workers()), True))

    def ask(self, method, key, body=None):
        try:
            return super().ask(method, key, body)
        except OSError:
            return None, b""

    def stop(self):
        self.process.terminate()
        self.process.wait(SECONDS)


def places_of(caches, keys):
    """Which cache has each key."""
    return {key: [at for at, cache in enumerate(caches) if cache.process.poll() is None and cache.get(key) != 404] for key in keys}


def several_caches():
    """Each key is in one of four caches. If one is killed, its keys are stored in others, and all other keys are found; a fifth one takes about a fifth of the keys."""
    with tempfile.TemporaryDirectory() as place, contextlib.ExitStack() as ending:
        caches = [ending.enter_context(Cache(os.path.join(place, str(number)))) for number in range(4)]
        nginx = Nginx(os.path.join(place, "nginx"), [cache.port for cache in caches])
        ending.callback(nginx.stop)
        keys = [f"/ac/{number}" for number in range(KEYS)]
        check(*[(nginx.ask("PUT", key, key.encode())[0], 201) for key in keys])
        before = places_of(caches, keys)
        check(({len(at) for at in before.values()}, {1}))
        counts = [sum(at == [number] for at in before.values()) for number in range(4)]
        check((min(counts) >= KEYS // 8, True))
        large = os.urandom(5000000)
        check((nginx.ask("PUT", "/large", large)[0], 201), (nginx.ask("GET", "/large")[1] == large, True))
        caches[0].stop(signal.SIGKILL)
        statuses = {key: nginx.ask("GET", key) for key in keys}
        check(({key for key, (status, _) in statuses.items() if status == 404}, {key for key, at in before.items() if at == [0]}))
        check(({status for status, _ in statuses.values()}, {200, 404}), ({nginx.ask("PUT", key, key.encode())[0] for key in keys}, {201}))
        check(({nginx.ask("GET", key) == (200, key.encode()) for key in keys}, {True}))
        # the same cache again, at another port, and a fifth one
        caches[0] = ending.enter_context(Cache(os.path.join(place, "again")))
        caches.append(ending.enter_context(Cache(os.path.join(place, "fifth"))))
        nginx.change([cache.port for cache in caches[1:]])
        after = {key: nginx.ask("GET", key)[0] for key in keys}
        moved = sum(status == 404 for status in after.values())
        check((KEYS // 10 < moved < KEYS // 2, True))


def units():
    """The command line of the unit in share/ is one that the cache takes."""
    with open(os.path.join(SHARE, "b3store-cache@.service"), encoding="ascii") as file:
        unit = file.read()
    command = re.search("ExecStart=(.*)", unit)[1].split()
    with tempfile.TemporaryDirectory() as place:
        words = [os.path.join(TOP, "examples", "cache.py") if word.endswith("/cache.py") else word.replace("%S", place).replace("%i", str(free_port())) for word in command[1:]]
        notified = os.path.join(place, "notify")
        with socket.socket(socket.AF_UNIX, socket.SOCK_DGRAM) as listening:
            listening.bind(notified)
            listening.settimeout(SECONDS)
            os.makedirs(os.path.join(place, "b3store-cache"))
            with subprocess.Popen([sys.executable, *words], stderr=subprocess.PIPE, env={**os.environ, "NOTIFY_SOCKET": notified}) as process:
                check((listening.recv(100), b"READY=1"))
                while b"loaded" not in process.stderr.readline():
                    pass
                process.terminate()
                check((process.wait(SECONDS), 0), (listening.recv(100), b"STOPPING=1"))


def compiles_twice():
    """What is compiled again through a cache comes from it."""
    run = subprocess.run([sys.executable, os.path.join(TOP, "bench", "ccache"), "8"], stdout=subprocess.PIPE, stderr=subprocess.PIPE, timeout=SECONDS)
    line = next((line for line in run.stdout.decode().splitlines() if line.startswith("cache.py")), "")
    check((run.returncode, 0), (re.findall("with ([0-9]+) hits", line), ["0", "8", "8"]))


CASES = (units, *([several_caches] if shutil.which("nginx") else []), *([compiles_twice] if shutil.which("ccache") else []))
