"""A server of PostgreSQL with the extension, for tests.

It runs in a new folder, with its socket there and no network port, and ends with the `with` statement or with the
process. The extension is installed into a copy of its programs, so the system's own folders are unchanged.

    with Server(BUILT) as server:
        server.ask("SELECT 1")

BUILT is the folder in which `make` has built the extension; without it there is no extension. As a program it runs a
command whose `make install` and `psql` find the server:

    server.py COMMAND..

It needs initdb, postgres and psql of the PostgreSQL whose pg_config is named by PG_CONFIG. Root can't run a server, so it
runs it as `postgres` or `nobody`.
"""
import atexit
import ctypes
import os
import pwd
import shutil
import signal
import subprocess
import sys
import tempfile
import time

PG_CONFIG = os.environ.get("PG_CONFIG", "pg_config")
DEATH_SIGNAL = 1
LIMIT = 60  # seconds until a started server must respond
SETTINGS = {
    "listen_addresses": "", "fsync": "off", "synchronous_commit": "off", "autovacuum": "off", "max_wal_size": "4GB",
    "shared_buffers": "256MB", "jit": "off", "timezone": "UTC", "datestyle": "ISO", "max_parallel_workers": "4",
}


class QueryError(Exception):
    """The error message of psql for a failed query."""


def folder_of(name):
    return subprocess.run([PG_CONFIG, f"--{name}"], capture_output=True, text=True, check=True).stdout.strip()


def user_of_server():
    """The user that runs the server for root, or None."""
    if os.geteuid():
        return None
    for name in ("postgres", "nobody"):
        try:
            return pwd.getpwnam(name)
        except KeyError:
            pass
    raise OSError("there is no user `postgres` or `nobody` to run the server")


def end_with_parent():
    """Stops it immediately: a fast shutdown would wait for a call that parses a long text."""
    ctypes.CDLL(None).prctl(DEATH_SIGNAL, signal.SIGQUIT)


def linked(folder, root):
    """The folder below another root, with links for its files."""
    for at, _, files in os.walk(folder):
        os.makedirs(root + at, exist_ok=True)
        for name in files:
            if "pelzaune" not in name:
                os.symlink(os.path.realpath(f"{at}/{name}"), f"{root}{at}/{name}")


class Server:
    def __init__(self, built=None):
        self.built, self.running, self.user = built, None, user_of_server()
        self.bin = folder_of("bindir")
        self.folder = tempfile.mkdtemp(prefix="pelzaune-")
        self.root = f"{self.folder}/root"
        self.programs = self.root + self.bin

    def __enter__(self):
        atexit.register(self.end)
        signal.signal(signal.SIGTERM, lambda number, _: sys.exit(128 + number))
        try:
            self.copy()
            if self.built:
                self.install()
            self.start()
            if self.built:
                self.ask("CREATE EXTENSION pelzaune")
        except BaseException:
            self.end()
            raise
        return self

    def __exit__(self, *_):
        self.end()

    def copy(self):
        """Copies the programs, which search for other files relative to themselves."""
        os.makedirs(self.programs)
        for name in ("initdb", "postgres"):
            shutil.copy2(f"{self.bin}/{name}", self.programs)
        linked(folder_of("sharedir"), self.root)
        linked(folder_of("pkglibdir"), self.root)
        os.chmod(self.folder, 0o755)

    def install(self):
        subprocess.run(["make", "-s", "-C", self.built, "install", f"DESTDIR={self.root}", f"PG_CONFIG={PG_CONFIG}"],
                       check=True, stdout=subprocess.DEVNULL)

    def as_user(self):
        if self.user is None:
            return {}
        return {"user": self.user.pw_uid, "group": self.user.pw_gid, "extra_groups": []}

    def start(self):
        home = f"{self.folder}/home"
        os.mkdir(home)
        if self.user:
            os.chown(home, self.user.pw_uid, self.user.pw_gid)
        with open(f"{self.folder}/log", "wb") as log:
            how = {"stdout": log, "stderr": log, "stdin": subprocess.DEVNULL, "cwd": home, **self.as_user(),
                   "env": {**os.environ, "LC_ALL": "C"}}
            made = subprocess.run([f"{self.programs}/initdb", "-D", f"{home}/data", "-A", "trust", "-U", "tester", "--no-sync",
                                   "--locale=C", "-E", "UTF8"], check=False, **how)
            if made.returncode:
                raise OSError(f"initdb fails\n{self.log()}")
            words = [it for name, value in SETTINGS.items() for it in ("-c", f"{name}={value}")]
            self.running = subprocess.Popen([f"{self.programs}/postgres", "-D", f"{home}/data", "-k", home, *words],
                                            preexec_fn=end_with_parent, **how)
        begun = time.monotonic()
        while self.psql("SELECT 1").returncode:
            if self.running.poll() is not None or time.monotonic() - begun > LIMIT:
                raise OSError(f"the server doesn't answer\n{self.log()}")
            time.sleep(0.05)

    def end(self):
        if self.running:
            for how in (signal.SIGINT, signal.SIGQUIT, signal.SIGKILL):
                self.running.send_signal(how)
                try:
                    self.running.wait(20)
                    break
                except subprocess.TimeoutExpired:
                    pass
        self.running = None
        shutil.rmtree(self.folder, ignore_errors=True)

    def log(self):
        with open(f"{self.folder}/log", encoding="utf-8", errors="replace") as file:
            return file.read()[-4000:]

    def words(self, name, database="postgres"):
        """A command of a program beside psql for this server."""
        return [f"{self.bin}/{name}", "-h", f"{self.folder}/home", "-U", "tester", "-d", database]

    def psql(self, text, database="postgres", flags=("-v", "ON_ERROR_STOP=1"), encoding="UTF8"):
        """Runs a script. The result has its output and its errors, as bytes."""
        return subprocess.run([*self.words("psql", database), "-X", "-q", "-A", "-t", *flags],
                              input=text if isinstance(text, bytes) else text.encode(), capture_output=True, check=False,
                              env={**os.environ, "PGCLIENTENCODING": encoding})

    def ask(self, text, database="postgres"):
        """The lines that a script prints, or a QueryError."""
        done = self.psql(text, database)
        if done.returncode:
            raise QueryError(done.stderr.decode(errors="replace"))
        return done.stdout.decode().splitlines()

    def beside(self, text, database="postgres"):
        """A psql that runs in the background."""
        return subprocess.Popen([*self.words("psql", database), "-X", "-q", "-A", "-t", "-c", text], stdout=subprocess.PIPE,
                                stderr=subprocess.PIPE, text=True)


if __name__ == "__main__":
    with Server() as serving:
        where = {"DESTDIR": serving.root, "PGHOST": f"{serving.folder}/home", "PGUSER": "tester", "PGDATABASE": "postgres"}
        sys.exit(subprocess.run(sys.argv[1:], env={**os.environ, **where}, check=False).returncode)
