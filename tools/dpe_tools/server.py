"""A private PostgreSQL server for tests and measurements: on a loopback port, in a folder of its own, removed afterwards."""

from __future__ import annotations

import getpass
import os
import pwd
import secrets
import shutil
import socket
import subprocess
import tempfile
from collections.abc import Iterator
from contextlib import contextmanager
from importlib.util import find_spec
from pathlib import Path

INSTALLED = Path("/usr/lib/postgresql")
SUPERUSER = "postgres"
NO_RISK = {"fsync": "off", "synchronous_commit": "off", "full_page_writes": "off", "autovacuum": "off"}


def missing_packages() -> list[str]:
    """The packages of Debian that are needed and not installed."""
    wanted = {
        "python3-psycopg": find_spec("psycopg"),
        "python3-pglast": find_spec("pglast"),
        "graphviz": shutil.which("dot"),
        "postgresql": _binaries(),
    }
    return [package for package, found in wanted.items() if not found]


def _binaries() -> Path | None:
    """The folder of the newest installed server's programs."""
    found = sorted(INSTALLED.glob("*/bin/initdb"), key=lambda path: float(path.parts[-3]))
    return found[-1].parent if found else None


def _user() -> str:
    """The user that runs the server: the server refuses root."""
    if os.geteuid() != 0:
        return getpass.getuser()
    try:
        return pwd.getpwnam(SUPERUSER).pw_name
    except KeyError:
        return "nobody"


def _free_port() -> int:
    with socket.socket() as probe:
        probe.bind(("127.0.0.1", 0))
        return probe.getsockname()[1]


@contextmanager
def private_server(**settings: str) -> Iterator[str]:
    """The connection string of a server with these settings, which ends with the block and leaves nothing behind."""
    binaries = _binaries()
    folder = Path(tempfile.mkdtemp(prefix="dpe-postgres-"))
    try:
        user = _user()
        shutil.chown(folder, user)
        data, password, port = folder / "data", secrets.token_hex(16), _free_port()
        secret = folder / "password"
        secret.touch(mode=0o600)
        secret.write_text(password)
        shutil.chown(secret, user)
        initdb = [binaries / "initdb", "-D", data, "-U", SUPERUSER, "-A", "scram-sha-256", "--pwfile", secret, "-N"]
        _run([*initdb, "-E", "UTF8", "--locale", "C.UTF-8"], user, folder)
        given = {"listen_addresses": "127.0.0.1", "port": str(port), "unix_socket_directories": "", **NO_RISK, **settings}
        options = " ".join(f"-c {name}='{value}'" for name, value in given.items())
        control = [binaries / "pg_ctl", "-D", data, "-w", "-s"]
        _run([*control, "-l", folder / "log", "-o", options, "start"], user, folder)
        try:
            yield f"host=127.0.0.1 port={port} user={SUPERUSER} dbname=postgres password={password}"
        finally:
            _run([*control, "-m", "immediate", "stop"], user, folder)
    finally:
        shutil.rmtree(folder)


def _run(words: list[object], user: str, folder: Path) -> None:
    """Runs a command as this user."""
    other = {"user": user, "group": pwd.getpwnam(user).pw_gid, "extra_groups": []} if os.geteuid() == 0 else {}
    subprocess.run([str(word) for word in words], check=True, cwd=folder, stdout=subprocess.DEVNULL, **other)
