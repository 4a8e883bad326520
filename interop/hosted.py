"""Checks of `rmi host`, the server that runs until its standard input ends, with Java clients."""
import contextlib
import os
import re
import socket
import subprocess
import threading
import time

from harness import HOST, LEASE, PATIENCE, Wrong, check, free_port, until, want

# How long a stop may take, in seconds: what a call that runs and a half of a link may take at most.
STOP = 61
# After how many seconds a link without a byte is given up.
SILENCE = 60
# How many threads of a Java client call while the server is stopped.
HAMMERS = 8
# The sample's objects.
SAMPLE = [16, 17, 18]
LINK = re.compile(r"link (\d+) (\S+) (\d+) (.+) calls (\d+) ms (\d+)")


class Hosted:
    """A server that runs for good, and what it printed once it was stopped."""

    def __init__(self, program, address, host, *words, source=subprocess.PIPE, output=subprocess.PIPE):
        self.address, self.port = address, free_port()
        command = [program, "host", address, host, str(self.port), *map(str, words)]
        self.process = subprocess.Popen(command, stdin=source, stdout=output, stderr=subprocess.PIPE)
        self.said, self.took = {}, None
        self.readers = [threading.Thread(target=self.read, args=(name,), daemon=True) for name in ("stdout", "stderr") if getattr(self.process, name)]
        for it in self.readers:
            it.start()
        until(PATIENCE, self.listens)

    def __enter__(self):
        return self

    def __exit__(self, *_):
        self.process.kill()
        self.process.wait()

    def read(self, name):
        self.said[name] = getattr(self.process, name).read()

    def at(self):
        """An address that leads to it."""
        return HOST if self.address == "0.0.0.0" else self.address

    def listens(self):
        want(f"the server ended: {self.said}", self.process.poll() is None)
        with contextlib.suppress(ConnectionRefusedError):
            socket.create_connection((self.at(), self.port), timeout=PATIENCE).close()
            return True
        return False

    def end(self):
        """Ends its input, and waits until it has ended."""
        start = time.monotonic()
        self.process.stdin.close()
        self.process.wait(STOP + PATIENCE)
        self.took = time.monotonic() - start
        for it in self.readers:
            it.join(PATIENCE)

    def stop(self):
        """Ends its input, and returns the lines that it printed once it has ended well."""
        self.end()
        want(f"status {self.process.returncode} and errors {self.said['stderr'][-300:]!r}", self.process.returncode == 0)
        return self.said["stdout"].decode().splitlines()

    def kill(self):
        """Kills it, and returns the whole lines that it printed until then."""
        self.process.kill()
        self.process.wait()
        for it in self.readers:
            it.join(PATIENCE)
        return self.said["stdout"].decode().split("\n")[:-1]

    def links(self):
        """What it said of each link that ended, once it was stopped."""
        lines = self.said["stderr"].decode().splitlines()
        want(f"another first line: {lines[:1]}", lines[:1] == [f"listening {self.address} {self.port}"])
        found = [LINK.fullmatch(line) for line in lines[1:]]
        want(f"another line: {[line for line, it in zip(lines[1:], found) if not it][:3]}", all(found))
        return found


def objects(lines):
    """The numbers of the objects in an outline."""
    return [int(found[1]) for found in (re.fullmatch(r"object (\d+) kind .*", line) for line in lines) if found]


def properties(host):
    return [f"-Dinterop.host={host}"]


def check_addresses(java, program):
    """Java clients at other addresses than 127.0.0.1, by number and by name."""
    for address, host in (("127.0.0.2", "127.0.0.2"), ("127.0.0.1", "localhost"), ("0.0.0.0", "localhost")):
        with Hosted(program, address, host, "open", LEASE * 1000, LEASE * 1000) as server:
            java.checks("Client", server.port, "names", "values", "counters", flags=properties(host))
            with check(f"a host at {address} by the name {host} stops well, and tells of each link"):
                lines = server.stop()
                want(f"other objects: {lines}", objects(lines)[:3] == SAMPLE)
                found = server.links()
                numbers = sorted(int(it[1]) for it in found)
                want(f"links {numbers}", numbers == list(range(1, len(numbers) + 1)))
                want(f"no calls were told: {found[:3]}", any(int(it[5]) > 10 for it in found))


def killed(java, server, word, kill):
    """A Java program that holds a counter of the server, and is then killed, or goes on."""
    holder = subprocess.Popen(java.words("Holder", server.port), stdin=subprocess.PIPE, stdout=subprocess.PIPE, stderr=subprocess.STDOUT)
    try:
        line = holder.stdout.readline().decode(errors="replace").strip()
        want(f"{line!r} in place of {word!r}", line.startswith(word))
        number = int(line.split()[1][:16], 16)
        if kill:
            holder.kill()
            holder.wait()
        time.sleep(2 * LEASE + 2)
        return number, objects(server.stop())
    finally:
        holder.kill()
        holder.wait()


def check_killed(java, program):
    """The object of a client that was killed is withdrawn, though no other link comes; that of one that lives is not."""
    for name, kill in (("a client that is killed: its object is withdrawn with no other link coming", True), ("a client that lives: its object stays", False)):
        with check(name), Hosted(program, HOST, HOST, "closed", LEASE * 1000, LEASE * 1000) as server:
            number, left = killed(java, server, "made", kill)
            want(f"object {number} among {left}", left == (SAMPLE if kill else [*SAMPLE, number]))


def check_stop(java, program):
    """A stop while clients call: each call returns, or throws an RMI exception."""
    with check("a stop while clients call: each call returns or throws an RMI exception"), Hosted(program, HOST, HOST) as server:
        client = subprocess.Popen(java.words("Hammer", server.port, HAMMERS), stdin=subprocess.DEVNULL, stdout=subprocess.PIPE, stderr=subprocess.STDOUT)
        try:
            want("no calls", client.stdout.readline() == b"calling\n")
            time.sleep(0.5)
            lines = server.stop()
            want(f"the stop took {server.took:.1f} s", server.took < STOP)
            want(f"other objects: {lines}", objects(lines) == SAMPLE)
            said = client.communicate(timeout=STOP)[0].decode().splitlines()
            ends = [re.fullmatch(r"ended remote (\S+) (\d+)", line) for line in said]
            want(f"other ends: {said}", len(ends) == HAMMERS and all(ends) and all(int(it[2]) < STOP * 1000 for it in ends))
        finally:
            client.kill()
            client.wait()


def check_refused_after(java, program):
    """Once it was told to stop it accepts no link, also while one that it has is served to its end."""
    with check("after the stop no link is accepted"), Hosted(program, HOST, HOST) as server:
        server.stop()
        with contextlib.suppress(ConnectionRefusedError):
            socket.create_connection((HOST, server.port), timeout=PATIENCE).close()
            raise Wrong("it is answered")


# A host that writes a journal.
JOURNAL = ["open", LEASE * 1000, LEASE * 1000, "journal"]


def replayed(program, lines):
    """The outline of a journal of these lines."""
    journal = "".join(f"{line}\n" for line in lines).encode()
    ran = subprocess.run([program, "replay"], input=journal, stdout=subprocess.PIPE, stderr=subprocess.PIPE, timeout=PATIENCE, check=False)
    want(f"status {ran.returncode}, errors {ran.stderr[:300]!r}", (ran.returncode, ran.stderr) == (0, b""))
    outline = ran.stdout.decode().splitlines()
    want(f"events {outline[:1]} of {len(lines) - 1} lines", outline[0].split()[1] == str(len(lines) - 1))
    return outline


def check_journal(java, program):
    """The journal that it writes is one that `replay` reads, and gives what stands; so is the part that one had written which was killed."""
    with Hosted(program, HOST, HOST, *JOURNAL) as server:
        java.checks("Client", server.port, "names", "counters")
        with check("a journal of a host is replayed"):
            lines = server.stop()
            want(f"another first line: {lines[:1]}", lines[:1] and lines[0].startswith("space "))
            outline = replayed(program, lines)
            want(f"other objects: {outline}", objects(outline)[:3] == SAMPLE)
    with Hosted(program, HOST, HOST, *JOURNAL) as server:
        java.checks("Client", server.port, "counters")
        with check("the journal of a host that was killed is replayed, up to a second before"):
            time.sleep(2)
            lines = server.kill()
            want(f"objects of {replayed(program, lines)}", objects(replayed(program, lines))[:3] == SAMPLE)
            want(f"no calls among {len(lines)} lines", any(" begin " in line for line in lines))


def check_full(program):
    """An output that fails is told by the status at the stop, and until then it serves."""
    for word in ("silent", "journal"):
        with check(f"host {word} to a full disk"), open("/dev/full", "wb") as full:
            with Hosted(program, HOST, HOST, "open", LEASE * 1000, LEASE * 1000, word, output=full) as server:
                time.sleep(2)
                want("it ended", server.listens())
                server.end()
                seen = server.process.returncode, server.said["stderr"].splitlines()[-1:]
                want(f"status and last line {seen}", seen == (4, [b"write fault"]))


def check_inputs(program):
    """An input that can't be waited for never stops it."""
    with open(os.devnull, "rb") as nothing:
        with check("a host whose input is /dev/null serves on"), Hosted(program, HOST, HOST, source=nothing) as server:
            time.sleep(2.5)
            want("it ended", server.listens())


@contextlib.contextmanager
def silent_link(program):
    """A link that says nothing, beside all other checks: it is ended by its limit."""

    def wait():
        with check("a link of a host that says nothing is ended after a minute"):
            with Hosted(program, HOST, HOST) as server, socket.create_connection((HOST, server.port), timeout=SILENCE + PATIENCE) as link:
                start = time.monotonic()
                want("an answer", link.recv(1) == b"")
                took = time.monotonic() - start
                want(f"ended after {took:.1f} s", SILENCE - 1 < took)

    thread = threading.Thread(target=wait)
    thread.start()
    try:
        yield
    finally:
        thread.join()


def check_hosted(java, program):
    check_addresses(java, program)
    check_killed(java, program)
    check_stop(java, program)
    check_refused_after(java, program)
    check_journal(java, program)
    check_full(program)
    check_inputs(program)
