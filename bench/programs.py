"""What the peers are made of: the Debian packages that each needs, and the drivers of bench/peers, compiled into a folder.

A peer of which something is missing is left out, and it is said why."""
import glob
import os
import shutil
import subprocess

HERE = os.path.dirname(os.path.abspath(__file__))
CC = [os.environ.get("CC", "cc"), "-O2", "-Wall", "-Wextra", "-pthread"]
GHC = ["ghc", "-v0", "-O2", "-threaded", "-with-rtsopts=-A16m"]
# each peer: its Debian packages, its driver's source, and the libraries of that
PEERS = {
    "redis": (["redis-server", "libhiredis-dev"], "redis.c", ["-lhiredis"]),
    "lmdb": (["liblmdb-dev"], "lmdb.c", ["-llmdb"]),
    "sqlite": (["libsqlite3-dev"], "sqlite.c", ["-lsqlite3"]),
    "postgres": (["postgresql", "libpq-dev"], "postgres.c", ["-I/usr/include/postgresql", "-lpq"]),
    "stm": (["ghc"], "stm.hs", []),
}
OWN = {"syncs": "syncs.c", "serve": "serve.c"}
# the packages whose versions are told; a star matches any end of a name
PARTS = ["redis-server", "libhiredis0.14", "liblmdb0", "libsqlite3-0", "postgresql-*", "libpq5", "ghc", "gcc", "libc6"]


class CannotBuild(Exception):
    """A driver is not there, for this reason."""


def output_of(command, room):
    """What a compiler says against a file, or None where it says nothing against it."""
    try:
        it = subprocess.run(command, cwd=room, stdin=subprocess.DEVNULL, stdout=subprocess.PIPE, stderr=subprocess.STDOUT, text=True)
    except OSError as error:
        return str(error)
    return None if it.returncode == 0 else it.stdout.strip() or "it failed"


def compile_one(source, libraries, room, name):
    """Compiles a driver into a folder, and answers its path."""
    path, out = f"{HERE}/peers/{source}", f"{room}/{name}"
    if source.endswith(".hs"):
        wrong = output_of([*GHC, "-outputdir", f"{room}/{name}.parts", "-o", out, path], room)
    else:
        wrong = output_of([*CC, "-o", out, path, *libraries], room)
    if wrong:
        raise CannotBuild(wrong.split("\n")[0])
    return out


def server_of(peer):
    """The server that a peer needs beside its driver, or a reason for which it cannot be run; (None, None) where it needs none."""
    if peer == "redis":
        found = shutil.which("redis-server")
    elif peer == "postgres":
        found = (sorted(glob.glob("/usr/lib/postgresql/*/bin/postgres"), key=lambda it: int(it.split("/")[4])) or [None])[-1]
    else:
        return None, None
    return found, None if found else "its server is not there"


def build(room, wanted):
    """Compiles the drivers into a folder. Answers their paths, the servers' paths, and why which peers are left out."""
    drivers = {name: compile_one(source, [], room, name) for name, source in OWN.items()}
    servers, left_out = {}, {}
    for peer in (it for it in PEERS if it in wanted):
        packages, source, libraries = PEERS[peer]
        server, wrong = server_of(peer)
        try:
            if wrong:
                raise CannotBuild(wrong)
            drivers[peer] = compile_one(source, libraries, room, peer)
            servers[peer] = server
        except CannotBuild as error:
            left_out[peer] = f"needs {' '.join(packages)} ({error})"
    return drivers, servers, left_out


def versions(names):
    """The versions of the packages that are installed."""
    try:
        it = subprocess.run(["dpkg-query", "-W", "-f", "${db:Status-Abbrev} ${Package} ${Version}\n", *names], stdout=subprocess.PIPE, stderr=subprocess.DEVNULL, text=True)
    except OSError:
        return {}
    rows = (line.split() for line in it.stdout.splitlines())
    return {row[1]: row[2] for row in rows if len(row) == 3 and row[0] == "ii"}


def packages():
    """All packages that the peers need."""
    return [name for names, _, _ in PEERS.values() for name in names]
