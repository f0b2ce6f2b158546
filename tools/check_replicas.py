#!/usr/bin/env python3
"""Runs the tests of examples/replicas over a Redis server and a PostgreSQL server, which it starts and ends.

usage: check_replicas.py DIR

DIR has the shared library: the folder `lib` of an installed package. The servers listen on a socket in a temporary folder and on no port.
Debian's packages redis-server, postgresql, python3-redis and python3-psycopg2 are installed first, if a part of them is missing and this
process runs as root. If a part is missing then, the tests are not run, and a line says so. The tests run in the Python of the system, which
these packages are for.
"""

import contextlib
import getpass
import os
import shutil
import subprocess
import sys
import tempfile
import time
from pathlib import Path

TOP = Path(__file__).resolve().parent.parent
TESTS = TOP / "examples/replicas"
PACKAGES = ("redis-server", "postgresql", "python3-redis", "python3-psycopg2")
PYTHON = shutil.which("python3", path=os.defpath) or sys.executable
POSTGRES_USER = "postgres"  # its server does not run as root
DATABASE = "postgres"
SECONDS = 60  # until a server replies


def postgres_tools():
    """The folder of the newest PostgreSQL server, or None."""
    found = sorted(Path("/usr/lib/postgresql").glob("*/bin/postgres"), key=lambda path: int(path.parts[-3]))
    return found[-1].parent if found else None


def is_complete():
    has_clients = subprocess.run([PYTHON, "-c", "import redis, psycopg2"], stderr=subprocess.DEVNULL).returncode == 0
    return bool(shutil.which("redis-server") and postgres_tools() and has_clients)


def install():
    """Installs what is missing. Debian starts the servers that it installs only with systemd, and this project uses its own."""
    quiet = {"stdout": subprocess.DEVNULL, "stderr": subprocess.DEVNULL, "stdin": subprocess.DEVNULL}
    environment = {**os.environ, "DEBIAN_FRONTEND": "noninteractive"}
    subprocess.run(["apt-get", "update"], env=environment, **quiet)
    subprocess.run(["apt-get", "install", "-y", "--no-install-recommends", *PACKAGES], env=environment, **quiet)


@contextlib.contextmanager
def running(command, **how):
    """Runs a server until the end of the block."""
    server = subprocess.Popen([str(word) for word in command], stdin=subprocess.DEVNULL, stdout=subprocess.DEVNULL, stderr=subprocess.DEVNULL, **how)
    try:
        yield server
    finally:
        server.terminate()
        server.wait(SECONDS)


def wait_for(server, command):
    """Waits until a command that asks a server succeeds."""
    ends = time.monotonic() + SECONDS
    while subprocess.run([str(word) for word in command], stdout=subprocess.DEVNULL, stderr=subprocess.DEVNULL).returncode:
        if server.poll() is not None or time.monotonic() > ends:
            sys.exit(f"replicas: {Path(server.args[0]).name} does not start")
        time.sleep(0.1)


@contextlib.contextmanager
def redis(folder):
    """Starts Redis, which writes each entry to its file before it replies. Gives its address."""
    socket = folder / "redis.sock"
    command = ["redis-server", "--port", "0", "--unixsocket", socket, "--dir", folder, "--save", "", "--appendonly", "yes", "--appendfsync", "always"]
    with running(command) as server:
        wait_for(server, ["redis-cli", "-s", socket, "ping"])
        yield f"unix://{socket}"


@contextlib.contextmanager
def postgres(folder):
    """Starts PostgreSQL. Gives its address."""
    tools, data, is_root = postgres_tools(), folder / "data", os.geteuid() == 0
    how = {"user": POSTGRES_USER, "group": POSTGRES_USER, "extra_groups": []} if is_root else {}
    user = POSTGRES_USER if is_root else getpass.getuser()
    data.mkdir()
    if is_root:
        shutil.chown(folder, POSTGRES_USER)
        shutil.chown(data, POSTGRES_USER)
    subprocess.run([tools / "initdb", "-D", data, "-U", user, "-A", "trust"], check=True, stdout=subprocess.DEVNULL, cwd=folder, **how)
    with running([tools / "postgres", "-D", data, "-k", folder, "-c", "listen_addresses="], cwd=folder, **how) as server:
        wait_for(server, [tools / "pg_isready", "-h", folder])
        yield f"host={folder} user={user} dbname={DATABASE}"


def main():
    if len(sys.argv) != 2:
        sys.exit(__doc__)
    if not is_complete() and os.geteuid() == 0:
        install()
    if not is_complete():
        print(f"not run: this machine lacks a part of {', '.join(PACKAGES)}")
        return 0
    with tempfile.TemporaryDirectory(prefix="replicas-") as name, contextlib.ExitStack() as servers:
        folder = Path(name)
        folder.chmod(0o755)
        places = {engine: folder / engine for engine in ("redis", "postgres")}
        for place in places.values():
            place.mkdir()
        addresses = {
            "REPLICAS_REDIS": servers.enter_context(redis(places["redis"])),
            "REPLICAS_POSTGRES": servers.enter_context(postgres(places["postgres"])),
        }
        environment = {**os.environ, **addresses, "MORTARPINK_LIB_DIR": str(Path(sys.argv[1]).resolve()), "PYTHONDONTWRITEBYTECODE": "1",
                       "PYTHONPATH": str(TOP / "bindings/python")}
        return subprocess.run([PYTHON, "-W", "error::ResourceWarning", "-m", "unittest", "test_replicas"], cwd=TESTS, env=environment).returncode


if __name__ == "__main__":
    sys.exit(main())
