"""A server of PostgreSQL of its own for the cases that need one: in a new folder, at a socket in it, gone at the end."""
import glob
import os
import pathlib
import pwd
import shutil
import subprocess
import tempfile
import unittest

from serve_client import LIMIT


def folder_of_programs():
    """The folder of initdb and postgres: that of the PATH, or the newest of Debian's; nothing if there is none."""
    if (found := shutil.which("initdb")) and shutil.which("postgres"):
        return pathlib.Path(found).resolve().parent
    debian = sorted(glob.glob("/usr/lib/postgresql/*/bin/initdb"), key=lambda it: int(it.split("/")[4]))
    return pathlib.Path(debian[-1]).parent if debian else None


def user():
    """The words that run a command as a user that postgres accepts; nothing if there is no such user."""
    if os.getuid():
        return []
    try:
        pwd.getpwnam("postgres")
    except KeyError:
        return None
    return ["runuser", "-u", "postgres", "--"] if shutil.which("runuser") else None


needs_postgres = unittest.skipUnless(folder_of_programs() and shutil.which("psql") and user() is not None, "no psql")


class Postgres:
    """One server. `psql` runs the words in a database."""

    def __init__(self):
        self.folder = pathlib.Path(tempfile.mkdtemp(prefix="pg"))
        if user():
            shutil.chown(self.folder, "postgres")
        self.run("initdb", "-D", self.folder / "data", "-U", "tester", "-A", "trust", "-E", "UTF8", "--locale=C", "--no-sync")
        options = f"-c listen_addresses='' -k {self.folder} -c fsync=off"
        self.run("pg_ctl", "-D", self.folder / "data", "-w", "-l", self.folder / "log", "-o", options, "start")

    def run(self, name, *words):
        done = subprocess.run([*user(), folder_of_programs() / name, *words], cwd="/", stdin=subprocess.DEVNULL, stdout=subprocess.DEVNULL,
                              stderr=subprocess.PIPE, text=True, timeout=2 * LIMIT, check=False)
        if done.returncode:
            raise OSError(f"{name}: {done.stderr}")

    def end(self):
        try:
            self.run("pg_ctl", "-D", self.folder / "data", "-m", "immediate", "stop")
        finally:
            shutil.rmtree(self.folder, ignore_errors=True)

    def surroundings(self, base):
        """The environment in which psql asks this server, over this database."""
        return {**os.environ, "PGHOST": str(self.folder), "PGUSER": "tester", "PGDATABASE": base}

    def psql(self, base, *words):
        """A process of psql that ended."""
        return subprocess.run(["psql", "-X", "-q", "-v", "ON_ERROR_STOP=1", *words], env=self.surroundings(base), stdin=subprocess.DEVNULL,
                              capture_output=True, text=True, timeout=LIMIT, check=False)
