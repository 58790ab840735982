"""Servers of ClickHouse and PostgreSQL on loopback, in a folder of their own, that run as long as a block."""

from __future__ import annotations

import ctypes
import os
import pwd
import shutil
import signal
import socket
import subprocess
import time
from collections.abc import Callable, Iterator
from contextlib import contextmanager
from pathlib import Path

START_SECONDS, END_SECONDS = 120, 60
CONFIG = """<yandex><logger><level>warning</level><log>{folder}/log</log><errorlog>{folder}/errors</errorlog></logger>
<http_port>{port}</http_port><tcp_port>{other}</tcp_port><listen_host>127.0.0.1</listen_host><keep_alive_timeout>3600</keep_alive_timeout>
<path>{folder}/tables/</path><tmp_path>{folder}/scratch/</tmp_path><users_config>users.xml</users_config>
<default_profile>default</default_profile><default_database>default</default_database>
<mark_cache_size>1000000000</mark_cache_size></yandex>"""
USERS = """<yandex><profiles><default><max_memory_usage>16000000000</max_memory_usage></default></profiles>
<users><default><password></password><networks><ip>127.0.0.1</ip></networks><profile>default</profile><quota>default</quota>
</default></users><quotas><default></default></quotas></yandex>"""
POSTGRES = {"shared_buffers": "3GB", "work_mem": "256MB", "maintenance_work_mem": "256MB", "max_wal_size": "8GB", "fsync": "off",
            "synchronous_commit": "off", "full_page_writes": "off", "autovacuum": "off", "jit": "off"}


def clickhouse_program() -> str | None:
    return shutil.which("clickhouse-server")


def postgres_folder() -> Path | None:
    """Where the programs of the newest PostgreSQL lie: Debian has them outside the path."""
    found = sorted(Path("/usr/lib/postgresql").glob("*/bin/initdb"), key=lambda path: int(path.parts[-3]))
    named = shutil.which("initdb")
    return found[-1].parent if found else Path(named).resolve().parent if named else None


def free_port() -> int:
    with socket.socket() as listener:
        listener.bind(("127.0.0.1", 0))
        return listener.getsockname()[1]


def is_open(port: int) -> bool:
    with socket.socket() as one:
        return one.connect_ex(("127.0.0.1", port)) == 0


@contextmanager
def server_of(command: list[str], is_ready: Callable[[], bool], end: signal.Signals, log: Path, **more: object) -> Iterator[int]:
    """The process of a server, from when it is ready."""
    with open(log, "wb") as said:
        process = subprocess.Popen(command, stdin=subprocess.DEVNULL, stdout=said, stderr=said, **more)
    try:
        latest = time.monotonic() + START_SECONDS
        while not is_ready():
            if process.poll() is not None or time.monotonic() > latest:
                raise SystemExit(f"{command[0]} did not start:\n{log.read_text(errors='replace')[-2000:]}")
            time.sleep(0.1)
        yield process.pid
    finally:
        process.send_signal(end)
        try:
            process.wait(END_SECONDS)
        except subprocess.TimeoutExpired:
            process.kill()
            process.wait()


@contextmanager
def clickhouse(folder: Path) -> Iterator[tuple[int, int]]:
    """The port and the process of a ClickHouse."""
    port = free_port()
    for name in ("tables", "scratch"):
        (folder / name).mkdir(parents=True)
    (folder / "config.xml").write_text(CONFIG.format(folder=folder, port=port, other=free_port()))
    (folder / "users.xml").write_text(USERS)
    command = [clickhouse_program(), f"--config-file={folder}/config.xml"]
    with server_of(command, lambda: is_open(port), signal.SIGTERM, folder / "printed") as process:
        yield port, process


@contextmanager
def postgres(folder: Path) -> Iterator[int]:
    """The port of a PostgreSQL, which root runs as the user `postgres`."""
    folder.mkdir()
    port, programs, user = free_port(), postgres_folder(), {}
    if os.getuid() == 0:
        found = pwd.getpwnam("postgres")
        os.chown(folder, found.pw_uid, found.pw_gid)
        folder.parent.chmod(0o711)
        user = {"user": found.pw_uid, "group": found.pw_gid, "extra_groups": []}
    options = ["-U", "bench", "-A", "trust", "-E", "UTF8", "--locale=C", "-N"]
    subprocess.run([programs / "initdb", "-D", folder / "data", *options], check=True, cwd=folder, stdout=subprocess.DEVNULL, **user)
    settings = POSTGRES | {"port": port, "listen_addresses": "127.0.0.1", "unix_socket_directories": folder}
    command = [str(programs / "postgres"), "-D", str(folder / "data")]
    command += [word for name, value in settings.items() for word in ("-c", f"{name}={value}")]
    ready = [programs / "pg_isready", "-q", "-h", "127.0.0.1", "-p", str(port)]
    log = folder.parent / "postgres.log"
    with server_of(command, lambda: subprocess.run(ready).returncode == 0, signal.SIGINT, log, cwd=folder, **user):
        yield port


def processor_seconds(process: int) -> float:
    """What a process has used of the processors, its ended threads too. /proc tells it in steps of 10 ms, its clock finer."""
    clock = ctypes.c_int()
    if ctypes.CDLL(None).clock_getcpuclockid(process, ctypes.byref(clock)) != 0:
        raise ProcessLookupError(process)
    return time.clock_gettime(clock.value)
