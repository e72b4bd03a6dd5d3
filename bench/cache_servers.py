"""Servers in processes of their own, which the benchmarks compare. `our_cache`, `four_caches` and `nginx` start one in a folder, and yield its port."""
import contextlib
import os
import re
import socket
import subprocess
import sys
import time

TOP = os.path.dirname(os.path.dirname(os.path.abspath(__file__)))
SECONDS_TO_START = 10
PATHS = "".join(f"{name}_temp_path body;\n" for name in ("client_body", "proxy", "fastcgi", "uwsgi", "scgi"))
FILES = """\
client_max_body_size 0;
keepalive_requests 1000000000;
server {
  listen 127.0.0.1:%d;
  root files;
  location / {
    dav_methods PUT DELETE;
    create_full_put_path on;
  }
}
"""


def free_port():
    with socket.socket() as it:
        it.bind(("127.0.0.1", 0))
        return it.getsockname()[1]


def wait_for(port):
    end = time.monotonic() + SECONDS_TO_START
    while time.monotonic() < end:
        with contextlib.suppress(OSError):
            return socket.create_connection(("127.0.0.1", port)).close()
        time.sleep(0.05)
    sys.exit(f"nothing listens on port {port}")


@contextlib.contextmanager
def running(words, **how):
    """A server in a process, which is ended at the end of the block."""
    with subprocess.Popen(words, **how) as process:
        try:
            yield process
        finally:
            process.terminate()
            process.communicate()


@contextlib.contextmanager
def our_cache(place):
    """examples/cache.py. The port."""
    os.makedirs(place, exist_ok=True)
    words = [sys.executable, os.path.join(TOP, "examples", "cache.py"), os.path.join(place, "cache"), "--port", "0"]
    with running(words, stderr=subprocess.PIPE) as server:
        port, loaded = (server.stderr.readline().decode() for _ in range(2))
        if "loaded" not in loaded:
            sys.exit(f"cache.py doesn't start: {port}")
        yield int(port.split()[-1])


@contextlib.contextmanager
def four_caches(place):
    """Four caches behind nginx. The port."""
    with contextlib.ExitStack() as ending:
        ports = [ending.enter_context(our_cache(os.path.join(place, str(number)))) for number in range(4)]
        port = free_port()
        ending.enter_context(running(front_words(os.path.join(place, "nginx"), port, ports)))
        wait_for(port)
        yield port


def nginx_words(place, served):
    """The command for nginx that serves what some text of its configuration says. It writes files in a folder, which it makes."""
    user = "user root;\n" if os.geteuid() == 0 else ""
    os.makedirs(os.path.join(place, "files"), exist_ok=True)
    path = os.path.join(place, "nginx.conf")
    with open(path, "w", encoding="ascii") as file:
        file.write(f"daemon off;\n{user}worker_processes 1;\npid nginx.pid;\nevents {{}}\nhttp {{\naccess_log off;\n{PATHS}{served}}}\n")
    return ["nginx", "-p", place, "-c", path, "-e", os.path.join(place, "errors")]


def front_words(place, port, ports):
    """The command for nginx with the configuration of share/ for caches at some ports, which listens on a port."""
    with open(os.path.join(TOP, "share", "b3store-caches.conf"), encoding="ascii") as file:
        text = file.read()
    servers = re.findall("    server 127.*\n", text)
    text = text.replace("".join(servers), "".join(re.sub(":[0-9]+", f":{port}", servers[0]) for port in ports)).replace("127.0.0.1:8080", f"127.0.0.1:{port}")
    return nginx_words(place, text)


@contextlib.contextmanager
def nginx(place):
    port = free_port()
    with running(nginx_words(place, FILES % port)):
        wait_for(port)
        yield port


def redis_words(place, *words):
    """The command for a redis that saves nothing; the words say where it listens."""
    return ["redis-server", *words, "--save", "", "--appendonly", "no", "--dir", place, "--loglevel", "warning"]
