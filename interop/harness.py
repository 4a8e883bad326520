"""What all checks with Java share: lines of checks, ports, and Java programs."""
import contextlib
import glob
import os
import socket
import struct
import subprocess
import threading
import time

TOP = os.path.dirname(os.path.dirname(os.path.abspath(__file__)))
HOST = "127.0.0.1"
# How long any one thing may take, in seconds.
PATIENCE = 40
# How long a lease lasts at the server with short leases, in seconds.
LEASE = 3
# What each Java program is started with: it gives up a silent server, and keeps idle connections for a second.
FLAGS = ["-Xshare:auto", "-XX:TieredStopAtLevel=1", "-Xmx512m", f"-Dsun.rmi.transport.tcp.responseTimeout={PATIENCE * 500}", "-Dsun.rmi.transport.connectionTimeout=1000"]
JDK_FLAGS = [f"-Djava.rmi.dgc.leaseValue={LEASE * 1000}", f"-Dsun.rmi.dgc.checkInterval={LEASE * 250}", "-Dsun.rmi.dgc.server.gcInterval=300"]

PASSED, FAILED = [], []


class Wrong(Exception):
    """What was seen in place of what a check wants."""


def say(line):
    print(line, flush=True)


def told(line):
    """Takes a line that a check printed, in this program or in a Java one."""
    if line.startswith("ok "):
        PASSED.append(line[3:])
    elif line.startswith("FAILED "):
        FAILED.append(line[7:])
    say(line)


@contextlib.contextmanager
def check(name):
    """Prints the line of a check."""
    try:
        yield
        told(f"ok {name}")
    except (Wrong, OSError, ValueError, IndexError, struct.error, subprocess.SubprocessError) as seen:
        told(f"FAILED {name}: {type(seen).__name__} {seen}")


def want(what, fact):
    if not fact:
        raise Wrong(what)


def until(seconds, fact):
    """Waits until the fact holds, and returns after how many seconds it did."""
    start = time.monotonic()
    while not fact():
        want(f"not so after {seconds} s", time.monotonic() - start < seconds)
        time.sleep(0.1)
    return time.monotonic() - start


def free_port():
    with socket.socket() as it:
        it.bind((HOST, 0))
        return it.getsockname()[1]


def listens(port):
    """Makes a link and closes it, and returns whether there is a listener."""
    try:
        socket.create_connection((HOST, port), timeout=PATIENCE).close()
        return True
    except ConnectionRefusedError:
        return False


class Java:
    """Compiled classes, and how they are run."""

    def __init__(self, folder):
        self.folder = folder
        sources = glob.glob(f"{TOP}/interop/java/*/*.java")
        subprocess.run(["javac", "-nowarn", "-d", folder, *sources], check=True, timeout=2 * PATIENCE)

    def words(self, name, *words, flags=()):
        return ["java", *FLAGS, *flags, "-cp", self.folder, f"interop.{name}", *map(str, words)]

    def client(self, port, *checks):
        """Runs checks of the client, and takes the lines that it prints."""
        self.checks("Client", port, *checks)

    def checks(self, program, *words, flags=()):
        """Runs a program of checks, and takes the lines that it prints."""
        name = " ".join([program, "ends:", *map(str, words[1:])])
        with check(name):
            ran = subprocess.run(self.words(program, *words, flags=flags), stdout=subprocess.PIPE, stderr=subprocess.STDOUT, timeout=2 * PATIENCE, check=False)
            lines = ran.stdout.decode(errors="replace").splitlines()
            for line in lines:
                told(line)
            failed = [line for line in lines if line.startswith("FAILED ")]
            want(f"status {ran.returncode}", ran.returncode == (1 if failed else 0))
