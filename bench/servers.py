"""The folder in which the peers run, and the servers of Redis and PostgreSQL in it, which each round starts anew. All ends with the
`with` that began it."""
import os
import pwd
import shutil
import socket
import subprocess
import sys
import tempfile
import time

PATIENCE = 30


class CannotStart(Exception):
    """A server is not there, for this reason."""


def bound(signal, user=None):
    """What a command begins with so that it ends with this process, however this one ends, and so that another user runs it."""
    if shutil.which("setpriv") is None:
        return []
    as_user = [f"--reuid={user}", f"--regid={user}", "--clear-groups"] if user else []
    return ["setpriv", f"--pdeathsig={signal}", *as_user, "--"]


class Room:
    """A temporary folder. What is kept in memory is in a folder of its own, where the system has a file system for that."""

    def __init__(self, place):
        self.path = tempfile.mkdtemp(prefix="tmem-peers-", dir=place)
        os.chmod(self.path, 0o711)  # the user of PostgreSQL goes through it
        try:
            self.memory = tempfile.mkdtemp(prefix="tmem-peers-", dir="/dev/shm")
        except OSError:
            self.memory = self.new("memory")

    def __enter__(self):
        return self

    def __exit__(self, *_):
        shutil.rmtree(self.path, ignore_errors=True)
        shutil.rmtree(self.memory, ignore_errors=True)

    def new(self, name, in_memory=False):
        """A new folder."""
        path = f"{self.memory if in_memory else self.path}/{name}"
        os.mkdir(path)
        return path


class Server:
    """A server that answers once it is made, with its output in a file."""

    def __init__(self, name, command, log, is_ready):
        self.name = name
        with open(log, "wb") as out:
            self.process = subprocess.Popen(command, stdin=subprocess.DEVNULL, stdout=out, stderr=out, start_new_session=True)
        try:
            self.wait_for(is_ready, log)
        except BaseException:
            self.stop()
            raise

    def wait_for(self, is_ready, log):
        """Waits until it answers."""
        end = time.monotonic() + PATIENCE
        while not is_ready():
            if self.process.poll() is not None or time.monotonic() > end:
                with open(log, encoding="utf-8", errors="replace") as text:
                    raise CannotStart(f"{self.name} did not start: {text.read()[-300:].strip()}")
            time.sleep(0.02)

    def stop(self):
        """Ends the server, and waits until it has ended."""
        self.process.terminate()
        try:
            self.process.wait(PATIENCE)
        except subprocess.TimeoutExpired:
            self.process.kill()
            self.process.wait()


def listens(at):
    """Whether somebody listens on a socket."""
    with socket.socket(socket.AF_UNIX) as it:
        try:
            it.connect(at)
        except OSError:
            return False
    return True


def start_redis(room, server, number):
    """Redis, which answers once its log is synced, and takes no snapshots. Answers the server, and where it is asked."""
    folder = room.new(f"redis{number}")
    at = f"{folder}/socket"
    words = ["--port", "0", "--unixsocket", at, "--dir", folder, "--appendonly", "yes", "--appendfsync", "always", "--save", ""]
    return Server("redis", [*bound("KILL"), server, *words], f"{room.path}/redis.log", lambda: listens(at)), at


def make_postgres(folder, programs, user):
    """Makes what PostgreSQL keeps in a folder, which all rounds use, and has it written before anything is timed."""
    if user:
        try:
            owner = pwd.getpwnam(user)
        except KeyError:
            raise CannotStart("postgres does not run as root, and there is no user postgres") from None
        os.chown(folder, owner.pw_uid, owner.pw_gid)
    made = [*bound("KILL", user), f"{programs}/initdb", "--no-sync", "-A", "trust", "-U", "postgres", "-E", "UTF8", "--locale=C", "-D", f"{folder}/data"]
    it = subprocess.run(made, cwd="/", stdin=subprocess.DEVNULL, stdout=subprocess.PIPE, stderr=subprocess.STDOUT, text=True)
    if it.returncode:
        raise CannotStart(f"postgres: initdb: {it.stdout[-300:].strip()}")
    os.sync()


def start_postgres(room, server, number):
    """PostgreSQL as it is installed, but for serializable transactions and no network."""
    folder, programs = f"{room.path}/postgres", os.path.dirname(server)
    user = "postgres" if os.getuid() == 0 else None
    if number == 1:
        make_postgres(room.new("postgres"), programs, user)
    words = ["-D", f"{folder}/data", "-k", folder, "-c", "listen_addresses=", "-c", "default_transaction_isolation=serializable"]
    asked = [f"{programs}/pg_isready", "-q", "-h", folder]
    is_ready = lambda: subprocess.run(asked, stdin=subprocess.DEVNULL).returncode == 0  # noqa: E731
    return Server("postgres", [*bound("QUIT", user), server, *words], f"{room.path}/postgres.log", is_ready), folder


STARTS = {"redis": start_redis, "postgres": start_postgres}


class Servers:
    """The servers of the peers that are there, for a round. What one start of a server brings about, as where its memory lies, is
    another one in each round, and so in the spread of the figures."""

    def __init__(self, room, paths):
        self.room, self.left_out, self.running = room, {}, []
        self.paths = {peer: server for peer, server in paths.items() if peer in STARTS}

    def start(self, number):
        """Starts them for the round of a number, from 1, and answers where each is asked. One that cannot be started for the first
        round is left out of all."""
        places = {}
        for peer, server in self.paths.items():
            if peer not in self.left_out:
                try:
                    it, places[peer] = STARTS[peer](self.room, server, number)
                    self.running.append(it)
                except CannotStart as error:
                    if number > 1:
                        raise
                    self.left_out[peer] = str(error)
        return places

    def stop(self):
        """Stops all of them, also where one of them resists."""
        while self.running:
            it = self.running.pop()
            try:
                it.stop()
            except OSError as error:
                print(f"{it.name}: {error}", file=sys.stderr)
