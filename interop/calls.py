"""Checks of the commands that call servers: the JDK's own server and registry, `PROGRAM serve`, and peers that send odd bytes or none."""
import contextlib
import os
import re
import resource
import socket
import struct
import subprocess
import threading
import time

from harness import HOST, JDK_FLAGS, LEASE, PATIENCE, check, free_port, listens, until, want

# How long a peer may be silent before it is given up, in seconds.
SILENCE = 60
# How long the server's methods rest that are to be slow, in milliseconds.
REST = 1500
# The most memory that a client has where its peer lies about a length, in bytes, and the most that it may use where a peer never ends, in kB: a message has 16 MB at most,
# and a list that grows has its old room and the new one, which is twice that.
SCANT, AMPLE = 1 << 26, 60_000

# Servers.


class KindsServer:
    """A Java server with every kind of parameter, result and exception, and the lines that it has said. It has a registry of its own, or uses one that is there."""

    def __init__(self, java, host=HOST, registry=None, flags=()):
        self.host, self.port, self.lines, self.is_outside = host, registry or free_port(), [], registry is not None
        words = java.words("KindsServer", host, self.port, *(["outside"] if registry else []), flags=flags)
        self.process = subprocess.Popen(words, stdin=subprocess.PIPE, stdout=subprocess.PIPE, stderr=subprocess.STDOUT)
        threading.Thread(target=self.read, daemon=True).start()

    def __enter__(self):
        return self

    def __exit__(self, *_):
        self.process.kill()
        self.process.wait()

    def read(self):
        for line in self.process.stdout:
            self.lines.append(line.decode(errors="replace").strip())

    def is_ready(self):
        want(f"the server ended: {self.lines}", self.process.poll() is None)
        return "ready" in self.lines

    def await_ready(self):
        until(PATIENCE, self.is_ready)
        self.lines.clear()

    def has_said(self, *lines):
        """Waits until it has said these lines, in whatever order."""
        until(PATIENCE, lambda: len(self.lines) >= len(lines))
        want(f"said {self.lines}", sorted(self.lines) == sorted(lines))

    def awaits_lines(self, *lines):
        self.has_said(*lines)
        self.lines.clear()


@contextlib.contextmanager
def registry_of(java):
    """A registry in a process of its own, as the JDK brings it: its port."""
    port = free_port()
    words = ["rmiregistry", f"-J-Djava.class.path={java.folder}", str(port)]
    process = subprocess.Popen(words, stdin=subprocess.DEVNULL, stdout=subprocess.DEVNULL, stderr=subprocess.DEVNULL)
    try:
        until(PATIENCE, lambda: listens(port))
        yield port
    finally:
        process.kill()
        process.wait()


# Runs of the program.


def ran(program, *words, limited=None, patience=PATIENCE):
    """The status, the output and the errors of a run."""
    it = subprocess.run([program, *map(str, words)], stdin=subprocess.DEVNULL, stdout=subprocess.PIPE, stderr=subprocess.PIPE, timeout=patience, check=False, preexec_fn=limited)
    return it.returncode, it.stdout.decode(), it.stderr.decode()


def check_run(name, wanted, program, *words, **limits):
    """A run ends with this status, this output and these errors."""
    with check(name):
        seen = ran(program, *words, **limits)
        want(f"seen {seen}, wanted {wanted}", seen == wanted)


def check_pattern(name, status, output, errors, program, *words):
    """A run ends with this status, and its output and errors are of these patterns."""
    with check(name):
        seen = ran(program, *words)
        want(f"seen {seen}", seen[0] == status and re.fullmatch(output, seen[1]) and re.fullmatch(errors, seen[2]))


# What is called: an object, its method and the arguments; and what is printed.
LINES = [
    ("kinds", "shown(ZBSIJCLjava/lang/String;)Ljava/lang/String;", ["true", "~128", "~32768", "~2147483648", "~9223372036854775808", "65535", "é"], r'"true,-128,-32768,-2147483648,-9223372036854775808,65535,\u00e9"'),
    ("kinds", "shown(ZBSIJCLjava/lang/String;)Ljava/lang/String;", ["false", "127", "32767", "2147483647", "9223372036854775807", "0", ""], '"false,127,32767,2147483647,9223372036854775807,0,"'),
    ("kinds", "units(Ljava/lang/String;)Ljava/lang/String;", ['a"\\ é€😀'], '"00610022005c002000e920acd83dde00"'),
    ("kinds", "text(Ljava/lang/String;)Ljava/lang/String;", ["d83d00000022005c0020fffe0041de00"], r'"\ud83d\u0000\u0022\u005c\u0020\ufffeA\ude00"'),
    ("kinds", "text(Ljava/lang/String;)Ljava/lang/String;", ["20ac" * 30_000], '"' + r"\u20ac" * 30_000 + '"'),
    ("kinds", "mixed(Ljava/lang/String;ILjava/lang/String;JZLjava/lang/String;)Ljava/lang/String;", ["a", "~5", "", "7", "true", "b"], '"a,-5,,7,true,b"'),
    ("kinds", f"sum({'J' * 26}I)J", [*map(str, range(1, 27)), "~1"], "350"),
    ("kinds", "same(Z)Z", ["true"], "true"),
    ("kinds", "same(Z)Z", ["false"], "false"),
    ("kinds", "same(B)B", ["~128"], "-128"),
    ("kinds", "same(B)B", ["127"], "127"),
    ("kinds", "same(S)S", ["~32768"], "-32768"),
    ("kinds", "same(S)S", ["32767"], "32767"),
    ("kinds", "same(I)I", ["~2147483648"], "-2147483648"),
    ("kinds", "same(I)I", ["2147483647"], "2147483647"),
    ("kinds", "same(J)J", ["~9223372036854775808"], "-9223372036854775808"),
    ("kinds", "same(J)J", ["9223372036854775807"], "9223372036854775807"),
    ("kinds", "same(C)C", ["0"], "0"),
    ("kinds", "same(C)C", ["65535"], "65535"),
    ("kinds", "same(Ljava/lang/Object;)Ljava/lang/Object;", ["a"], '"a"'),
    ("kinds", "same(Ljava/lang/Object;)Ljava/lang/Object;", [""], '""'),
    ("kinds", "nothing()V", [], "void"),
    ("kinds", "noText()Ljava/lang/String;", [], "null"),
    ("kinds", "noObject()Ljava/lang/Object;", [], "null"),
    ("kinds", "noReference()Lkinds/Kinds;", [], "null"),
]

# The same where graphs are printed.
GRAPHS = [
    (
        "boxed()Ljava/lang/Object;",
        """#0 desc "java.lang.Integer" 12e2a0a4f7818738 02 I:"value" note null super #1
#1 desc "java.lang.Number" 86ac951d0b94e08b 02 - note null super null
#2 object #0 (- -) (5 -)
item #2""",
    ),
    (
        "numbers()[I",
        """#0 desc "[I" 4dba602676eab2a5 02 - note null super null
#1 array #0 3 1,-1,2147483647
item #1""",
    ),
    (
        "bytes()[B",
        """#0 desc "[B" acf317f8060854e0 02 - note null super null
#1 array #0 3 -128,0,127
item #1""",
    ),
    (
        "table()[[Z",
        """#0 desc "[[Z" 631f1721cb9a1c15 02 - note null super null
#1 array #0 2 #3,#4
#2 desc "[Z" 578f203914b85de2 02 - note null super null
#3 array #2 2 true,false
#4 array #2 0 -
item #1""",
    ),
    (
        "list()Ljava/util/List;",
        """#0 desc "java.util.ArrayList" 7881d21d99c7619d 03 I:"size" note null super null
#1 object #0 (2 x:00000002,#2,null)
#2 text "a"
item #1""",
    ),
    (
        "proxy()Ljava/lang/Object;",
        """#0 proxy "java.lang.Runnable","java.lang.Comparable" note null super #1
#1 desc "java.lang.reflect.Proxy" e127da20cc1043cb 02 L:"h":#2 note null super null
#2 text "Ljava/lang/reflect/InvocationHandler;"
#3 object #0 (#5 -) (- -)
#4 desc "kinds.Unused" 0000000000000004 02 - note null super null
#5 object #4 (- -)
item #3""",
    ),
    (
        "texts()[Ljava/lang/String;",
        """#0 desc "[Ljava.lang.String;" add256e7e91d7b47 02 - note null super null
#1 array #0 4 #2,null,#2,#3
#2 text "a"
#3 text ""
item #1""",
    ),
    (
        "ring()Lkinds/Node;",
        """#0 desc "kinds.Node" 0000000000000001 02 I:"number",L:"next":#1 note null super null
#1 text "Lkinds/Node;"
#2 object #0 (7,#3 -)
#3 object #0 (8,#2 -)
item #2""",
    ),
    (
        "fields()Lkinds/Fields;",
        """#0 desc "kinds.Fields" 0000000000000002 02 S:"few",J:"many",F:"part",D:"share",C:"sign",B:"small",I:"some",Z:"truth" note null super null
#1 object #0 (-32768,-9223372036854775808,x:3fc00000,x:8000000000000000,65535,-128,-2147483648,true -)
item #1""",
    ),
    (
        "constant()Ljava/lang/Thread$State;",
        """#0 desc "java.lang.Thread$State" 0000000000000000 12 - note null super #1
#1 desc "java.lang.Enum" 0000000000000000 12 - note null super null
#2 enum #0 #3
#3 text "NEW"
item #2""",
    ),
    (
        "type()Ljava/lang/Class;",
        """#0 desc "[I" 4dba602676eab2a5 02 - note null super null
#1 class #0
item #1""",
    ),
]

# What ends with an exception of the server's, and what is told of it.
FAULTS = [
    ("faults", "refuse(Ljava/lang/String;)V", ["no room"], "kinds.Refusal: no room"),
    ("faults", "fail(Ljava/lang/String;)I", ["00e920acd83dde00"], "java.lang.IllegalStateException: é€😀"),
    ("faults", "fail(Ljava/lang/String;)I", [""], "java.lang.IllegalStateException: "),
    ("faults", "failSilently()Ljava/lang/String;", [], "java.lang.UnsupportedOperationException"),
    ("faults", "failFor(I)V", ["50"], "java.lang.IllegalArgumentException: the last one"),
    ("faults", "exhaust()V", [], "java.rmi.ServerError: Error occurred in server thread"),
    ("faults", "refuseRemotely(Ljava/lang/String;)V", ["x"], "java.rmi.ServerException: RemoteException occurred in server thread"),
    ("gone", "refuse(Ljava/lang/String;)V", ["no room"], "java.rmi.NoSuchObjectException: no such object in table"),
]

# Words that are no call.
NO_CALLS = [
    ("a result of the type double", ["kinds", "real()D"]),
    ("a parameter of the type float", ["kinds", "realOf(F)F", "1"]),
    ("an array as a parameter", ["kinds", "sorted([I)V", "1"]),
    ("too few arguments", ["kinds", "same(I)I"]),
    ("too many arguments", ["kinds", "nothing()V", "1"]),
    ("a byte of 128", ["kinds", "same(B)B", "128"]),
    ("a byte of -129", ["kinds", "same(B)B", "~129"]),
    ("a short of 32768", ["kinds", "same(S)S", "32768"]),
    ("an int of 2^31", ["kinds", "same(I)I", "2147483648"]),
    ("a long of 2^63", ["kinds", "same(J)J", "9223372036854775808"]),
    ("a char of 65536", ["kinds", "same(C)C", "65536"]),
    ("a char of -1", ["kinds", "same(C)C", "~1"]),
    ("a number with a needless zero", ["kinds", "same(I)I", "05"]),
    ("a number behind a minus", ["kinds", "same(I)I", "-5"]),
    ("a truth value that is none", ["kinds", "same(Z)Z", "1"]),
    ("a string that begins with a minus", ["kinds", "same(Ljava/lang/Object;)Ljava/lang/Object;", "-a"]),
    ("a method's name alone", ["kinds", "nothing"]),
    ("a method without a result", ["kinds", "nothing()"]),
    ("no method", ["kinds"]),
    ("a name of 256 units", ["k" * 256, "nothing()V"]),
]


def check_answers(program, server):
    """Each kind of parameter and of result, and each kind of exception."""
    to = ["call", server.host, server.port]
    for name, method, arguments, line in LINES:
        said = [it if len(it) < 60 else f"of {len(it)} characters" for it in arguments]
        check_run(" ".join(["call", name, method, *said]), (0, f"{line}\n", ""), program, *to, name, method, *arguments)
    for method, lines in GRAPHS:
        check_run(f"call kinds {method}", (0, f"{lines}\n", ""), program, *to, "kinds", method)
    for name, method, arguments, fault in FAULTS:
        check_run(" ".join(["call", name, method, *arguments]), (7, "", f"remote fault {fault}\n"), program, *to, name, method, *arguments)
    for what, words in NO_CALLS:
        check_run(what, (1, "", "usage\n"), program, *to, *words)


def check_limits(program, server):
    """What a Java server may answer and the program does not take."""
    to = ["call", server.host, server.port]
    check_run("a message of half a pair", (7, "", "remote fault java.lang.IllegalStateException: \ufffd\n"), program, *to, "faults", "fail(Ljava/lang/String;)I", "d83d")
    check_run("a reference to an object of another port", (0, f"ref {'127.0.0.1' if server.is_outside else server.host} {server.port} 0:0/0/0\n", ""), program, *to, "kinds", "registry()Ljava/rmi/registry/Registry;")
    check_pattern("a method that is none", 7, "", "remote fault java[.]rmi[.]ServerException: .*\n", program, *to, "kinds", "none()V")
    check_pattern("an externalizable value", 2, "", r"bad reply at \d+\n", program, *to, "kinds", "duration()Ljava/lang/Object;")
    check_pattern("a value that can't be serialized", 2, "", r"bad reply at \d+\n", program, *to, "kinds", "broken()Ljava/lang/Object;")
    check_pattern("a list of 150 nodes", 0, r"(#\d+ .*\n){152}item #2\n", "", program, *to, "kinds", "chain(I)Lkinds/Node;", 150)
    check_pattern("a list of 250 nodes", 6, "", r"too large depth at \d+\n", program, *to, "kinds", "chain(I)Lkinds/Node;", 250)


REFERENCE = r"-?\d+:-?\d+/-?\d+/-?\d+"


def check_names(program, server):
    """Each command of the registry."""
    at = [server.host, server.port]
    names = {"faults", "gone", "keeper", "kinds"}

    def listed():
        status, output, errors = ran(program, "list", *at)
        want(f"status {status} and errors {errors!r}", (status, errors) == (0, ""))
        return set(output.splitlines())

    with check("list"):
        want("other names", listed() == names)
    check_pattern("lookup", 0, rf"{server.host} \d+ {REFERENCE}\n", "", program, "lookup", *at, "kinds")
    for name in ("copy", "é€😀 \\"):
        check_run(f"bind {name}", (0, "ok\n", ""), program, "bind", *at, name, "kinds")
        check_run(f"bind {name} once more", (7, "", f"remote fault java.rmi.AlreadyBoundException: {name}\n"), program, "bind", *at, name, "kinds")
        with check(f"list, with {name}"):
            want("other names", listed() == names | {name})
        with check(f"lookup of {name} and of what it was bound to"):
            want("other references", ran(program, "lookup", *at, name) == ran(program, "lookup", *at, "kinds"))
        check_run(f"call of {name}", (0, "5\n", ""), program, "call", *at, name, "same(I)I", 5)
        check_run(f"unbind {name}", (0, "ok\n", ""), program, "unbind", *at, name)
    unknown = (7, "", "remote fault java.rmi.NotBoundException: copy\n")
    for words in (["lookup", *at, "copy"], ["unbind", *at, "copy"], ["bind", *at, "other", "copy"], ["call", *at, "copy", "same(I)I", 5]):
        check_run(f"{words[0]} of a name that is not bound", unknown, program, *words)
    with check("list, at last"):
        want("other names", listed() == names)


def check_leases(program, server):
    """An object is told that no client is left once the client has given it up, and not before. The server's leases are long."""
    to = ["call", server.host, server.port, "keeper"]
    server.lines.clear()
    with check("a slow call: its object is kept, and given up after it"):
        want("another answer", ran(program, *to, "rest(J)I", REST) == (0, "0\n", ""))
        server.has_said("rests", "rested", "unreferenced keeper")
        want(f"another order: {server.lines}", server.lines.pop() == "unreferenced keeper")
        server.lines.clear()
    with check("an object that a call makes is given up, too"):
        status, output, errors = ran(program, *to, "make()Lkinds/Keeper;")
        want(f"seen {status, output, errors}", (status, errors) == (0, "") and re.fullmatch(rf"ref {server.host} \d+ {REFERENCE}\n", output))
        server.awaits_lines("unreferenced keeper", "unreferenced keeper.1")
    with check("objects in an array are given up"):
        status, output, errors = ran(program, *to, "several()[Lkinds/Keeper;")
        want(f"seen {status, output, errors}", (status, errors) == (0, "") and re.search(r'(?s)^#0 desc "\[Lkinds.Keeper;" .*\n#1 array #0 3 (#\d+),#\d+,\1\n.*\nitem #1\n$', output))
        server.awaits_lines("unreferenced keeper", "unreferenced keeper.2", "unreferenced keeper.3")
    with check("an object that a call of its own returns is held and given up once"):
        status, output, errors = ran(program, *to, "self()Ljava/lang/Object;")
        want(f"seen {status, output, errors}", (status, errors) == (0, "") and output == f"ref {ran(program, 'lookup', *to[1:])[1]}")
        server.awaits_lines("unreferenced keeper")


def check_left(server):
    """The keeper is told that no client is left, and not before a part of its lease is over."""
    took = until(4 * LEASE, lambda: "unreferenced keeper" in server.lines)
    want(f"given up after {took:.1f} s", took > LEASE / 4)


def check_killed(program, server):
    """A client that is killed, or whose call ends with an exception, gives nothing up: its object is kept until its lease has run out. The server's leases are short."""
    to = ["call", server.host, server.port, "keeper"]
    server.lines.clear()
    with check("a client that is killed in a call keeps its object until its lease ends"):
        words = [program, *map(str, to), "rest(J)I", str(PATIENCE * 1000)]
        client = subprocess.Popen(words, stdin=subprocess.DEVNULL, stdout=subprocess.DEVNULL, stderr=subprocess.DEVNULL)
        until(PATIENCE, lambda: server.lines)
        client.kill()
        client.wait()
        check_left(server)
    server.lines.clear()
    with check("a call that ends with an exception keeps its object until its lease ends"):
        seen = ran(program, *to, "none()V")
        want(f"seen {seen}", seen[:2] == (7, "") and seen[2].startswith("remote fault java.rmi.ServerException: "))
        check_left(server)


def check_dying(program, server):
    """A server that ends in a call, and leaves its names in a registry that goes on."""
    at = [server.host, server.port]
    check_pattern("a server that ends in a call", 2, "", r"truncated at \d+\n", program, "call", *at, "keeper", "halt()I")
    check_pattern("lookup of an object of a server that has ended", 0, rf"{server.host} \d+ {REFERENCE}\n", "", program, "lookup", *at, "keeper")
    check_run("call of an object of a server that has ended", (3, "", "dial fault\n"), program, "call", *at, "kinds", "nothing()V")


def check_nobody(program):
    """Places where no server is."""
    port = free_port()
    for words in (["list"], ["lookup", "a"], ["bind", "a", "b"], ["unbind", "a"], ["call", "a", "get()J"]):
        check_run(f"{words[0]} where nobody listens", (3, "", "dial fault\n"), program, words[0], HOST, port, *words[1:])
    check_run("list at a host that is none", (3, "", "dial fault\n"), program, "list", "no..host", port)
    check_run("call at a host that is none", (3, "", "dial fault\n"), program, "call", "no..host", port, "a", "get()J")


# Peers of odd bytes.


def wire(words):
    """The bytes that words spell: hexadecimal digits, or a text behind `=` and its length."""
    return b"".join(len(it[1:]).to_bytes(2, "big") + it[1:].encode() if it[0] == "=" else bytes.fromhex(it) for it in words.split())


UID = "00000006 0000000000000006 8000"
ACK = wire("4E =127.0.0.1 000004D2")
NORMAL = ACK + wire(f"51 ACED0005 77 0F 01 {UID}")
STRINGS = wire("75 72 =[Ljava.lang.String; ADD256E7E91D7B47 02 0000 70 78 70")
BYTES = wire("75 72 =[B ACF317F8060854E0 02 0000 70 78 70")
FAULT = wire(f"51 ACED0005 77 0F 02 {UID} 73 72 =java.lang.Throwable D5C635273977B8CB 03 0001 4C =detailMessage 74 =Ljava/lang/String; 70 78 70 74 =gone 78")
GRANTED = wire(f"51 ACED0005 77 0F 01 {UID} 73 72 =java.rmi.dgc.Lease B0B5E2660C4ADC34 02 0002 4A =value 4C =vmid 74 =Ljava/rmi/dgc/VMID; 70 78 70 00000000000927C0 70")


def found(port):
    """What a registry answers that finds an object at this port."""
    return NORMAL + wire(
        f"""73 7D 00000001 =java.rmi.Remote 70 78
        72 =java.lang.reflect.Proxy E127DA20CC1043CB 02 0001 4C =h 74 =Ljava/lang/reflect/InvocationHandler; 70 78 70
        73 72 =java.rmi.server.RemoteObjectInvocationHandler 0000000000000002 02 0000 70 78
        72 =java.rmi.server.RemoteObject D361B4910C61331E 03 0000 70 78 70
        77 32 =UnicastRef =127.0.0.1 {port:08X} 0000000000000010 00000007 0000000000000009 0000 01 78"""
    )


# What a peer sends in place of names before it closes the link, the status of `list`, and its errors.
ODD_LISTS = [
    ("nothing", b"", 2, "truncated at 0"),
    ("half an acknowledgement", ACK[:5], 2, "truncated at 5"),
    ("a refusal", b"O", 2, "nack"),
    ("a web page", b"HTTP/1.1 400 Bad Request\r\n\r\n", 2, "bad reply at 0"),
    ("an acknowledgement alone", ACK, 2, "truncated at 16"),
    ("the answer to a ping", ACK + b"S", 2, "bad reply at 16"),
    ("a Return that is no stream", ACK + wire("51 ACED0105"), 2, "bad reply at 19"),
    ("a Return of no kind", ACK + wire(f"51 ACED0005 77 0F 03 {UID}"), 2, "bad reply at 23"),
    ("an exception that is none", ACK + wire(f"51 ACED0005 77 0F 02 {UID} 70"), 2, "bad reply at 39"),
    ("a text", NORMAL + wire("74 =hi"), 2, "bad reply at 43"),
    ("a name that is null", NORMAL + STRINGS + wire("00000001 70"), 2, f"bad reply at {len(NORMAL + STRINGS) + 5}"),
    ("-1 names", NORMAL + STRINGS + wire("FFFFFFFF"), 2, f"bad reply at {len(NORMAL + STRINGS)}"),
    ("a text of -1 bytes", NORMAL + wire("7C FFFFFFFFFFFFFFFF"), 2, "bad reply at 39"),
]

# Lengths of which nothing comes: more parts than there may be of what begins at a position, or an end that comes too early.
LIES = [
    ("2^31 - 1 names", NORMAL + STRINGS + wire("7FFFFFFF"), 38),
    ("2^31 - 1 bytes", NORMAL + BYTES + wire("7FFFFFFF"), None),
    ("a text of 2^40 bytes", NORMAL + wire("7C 0000010000000000") + b"a" * 1000, None),
    ("a class of 32767 fields", NORMAL + wire("73 72 =A 0000000000000001 02 7FFF"), None),
    ("a class with 2^31 - 1 bytes beside it", NORMAL + wire("73 72 =A 0000000000000001 02 0000 7A 7FFFFFFF"), None),
    ("a proxy of 2^31 - 1 interfaces", NORMAL + wire("73 7D 7FFFFFFF"), 39),
]


def drain(link):
    """Takes what comes until the client closes the link."""
    with contextlib.suppress(OSError):
        while link.recv(65536):
            continue


def closes_half(link, data):
    """Sends bytes, and then the end."""
    link.sendall(data)
    link.shutdown(socket.SHUT_WR)


def closes(link, data):
    """Sends bytes, and then the end, and takes what comes."""
    closes_half(link, data)
    drain(link)


def stays(link, data):
    """Sends bytes, and then nothing more."""
    link.sendall(data)
    drain(link)


def trickles(link, data):
    """Sends bytes one by one."""
    for at in range(len(data)):
        link.sendall(data[at : at + 1])
        time.sleep(0.01)
    closes(link, b"")


def floods(link, data):
    """Sends bytes, and zeros for ever."""
    link.sendall(data)
    while True:
        link.sendall(bytes(65536))


def resets(link, data):
    """Sends bytes, and resets the link once a client has asked for names."""
    link.sendall(data)
    left = 7 + 15 + 41
    while left > 0:
        left -= len(link.recv(left))
    link.setsockopt(socket.SOL_SOCKET, socket.SO_LINGER, struct.pack("ii", 1, 0))


class Peer:
    """Plays to each link that it accepts what it is told to: the first one to the first link, and so on."""

    def __init__(self):
        self.listener = socket.create_server((HOST, 0))
        self.port = self.listener.getsockname()[1]

    def play(self, *parts):
        threading.Thread(target=self.accept, args=(parts,), daemon=True).start()
        return self

    def accept(self, parts):
        for how, data in parts:
            link, _ = self.listener.accept()
            link.settimeout(2 * PATIENCE)
            threading.Thread(target=self.answer, args=(link, how, data), daemon=True).start()
        self.listener.close()

    @staticmethod
    def answer(link, how, data):
        with link, contextlib.suppress(OSError):
            how(link, data)


def scant():
    """Leaves a process little memory."""
    resource.setrlimit(resource.RLIMIT_AS, (SCANT, SCANT))


def check_peers(program):
    """Peers that are no server, or a bad one."""
    for what, data, status, errors in ODD_LISTS:
        check_run(f"list where there comes {what}", (status, "", f"{errors}\n"), program, "list", HOST, Peer().play((closes, data)).port)
    for what, data, large_at in LIES:
        wanted = (2, "", f"truncated at {len(data)}\n") if large_at is None else (6, "", f"too large nodes at {large_at}\n")
        check_run(f"list with little memory, where there are said to be {what}", wanted, program, "list", HOST, Peer().play((closes, data)).port, limited=scant)
    check_run("list where the names come byte by byte", (0, "a\nb\n", ""), program, "list", HOST, Peer().play((trickles, NORMAL + STRINGS + wire("00000002 74 =a 74 =b"))).port)
    check_run("list where the link is reset", (3, "", "read fault\n"), program, "list", HOST, Peer().play((resets, ACK)).port)
    with check("list where there is no end, and its memory"):
        client = subprocess.Popen([program, "list", HOST, str(Peer().play((floods, NORMAL + BYTES + wire("7FFFFFFF"))).port)], stdin=subprocess.DEVNULL, stdout=subprocess.DEVNULL, stderr=subprocess.PIPE)
        errors = client.stderr.read()
        _, status, used = os.wait4(client.pid, 0)
        client.returncode = os.waitstatus_to_exitcode(status)
        want(f"status {client.returncode} and errors {errors}", (client.returncode, errors) == (6, b"too large bytes at %d\n" % (16 + (1 << 24))))
        want(f"{used.ru_maxrss} kB", used.ru_maxrss < AMPLE)


# What a registry sends that is asked for an object.
NO_OBJECTS = [
    ("nothing", b"", 2, "truncated at 0"),
    ("null", NORMAL + wire("70"), 2, "bad reply at 39"),
    ("a text", NORMAL + wire("74 =hi"), 2, "bad reply at 43"),
    ("an exception", ACK + FAULT, 7, "remote fault java.lang.Throwable: gone"),
]

# What an object's server sends on its link, the status of a call, and its errors.
HELD = ACK + GRANTED
FIVE = wire(f"51 ACED0005 77 17 01 {UID} 0000000000000005")
VOID = wire(f"51 ACED0005 77 0F 01 {UID}")
ODD_CALLS = [
    ("says nothing", b"", 2, "truncated at 0"),
    ("refuses", b"O", 2, "nack"),
    ("is a web server", b"HTTP/1.1 400 Bad Request\r\n\r\n", 2, "bad reply at 0"),
    ("grants no lease", NORMAL + wire("70"), 2, "bad reply at 39"),
    ("answers the dirty call with an exception", ACK + FAULT, 7, "remote fault java.lang.Throwable: gone"),
    ("grants a lease and says no more", HELD, 2, f"truncated at {len(HELD)}"),
    ("answers the call with nonsense", HELD + b"HTTP", 2, f"bad reply at {len(HELD)}"),
    ("answers a Return of no kind", HELD + wire(f"51 ACED0005 77 17 03 {UID} 0000000000000005"), 2, f"bad reply at {len(HELD) + 7}"),
    ("answers a part of a number", HELD + FIVE[:24], 2, f"truncated at {len(HELD) + 24}"),
    ("answers a text in place of a number", HELD + VOID + wire("74 =hi"), 2, f"bad reply at {len(HELD) + 22}"),
    ("answers an exception", HELD + FAULT, 7, "remote fault java.lang.Throwable: gone"),
    ("answers an exception that is none", HELD + wire(f"51 ACED0005 77 0F 02 {UID} 70"), 2, f"bad reply at {len(HELD) + 23}"),
    ("does not answer the clean call", HELD + FIVE, 2, f"truncated at {len(HELD + FIVE)}"),
    ("answers the clean call with nonsense", HELD + FIVE + b"\xff", 2, f"bad reply at {len(HELD + FIVE)}"),
    ("answers the clean call with an exception", HELD + FIVE + FAULT, 7, "remote fault java.lang.Throwable: gone"),
]


def check_object_peers(program):
    """Registries that name an object of a bad server, or none."""

    def check_call(name, wanted, *parts):
        peer = Peer()
        peer.play(*((how, data(peer.port) if callable(data) else data) for how, data in parts))
        check_run(name, wanted, program, "call", HOST, peer.port, "a", "get()J")

    for what, data, status, errors in NO_OBJECTS:
        check_call(f"call where the registry answers {what}", (status, "", f"{errors}\n"), (closes, data))
    for what, data, status, errors in ODD_CALLS:
        check_call(f"call where the object's server {what}", (status, "", f"{errors}\n"), (closes, found), (closes, data))
    check_call("call where the answers come byte by byte", (0, "5\n", ""), (trickles, found), (trickles, HELD + FIVE + VOID))
    check_call("call where the object's server resets the link", (3, "", "read fault\n"), (closes, found), (resets, ACK))
    check_run("call where the object's server does not listen", (3, "", "dial fault\n"), program, "call", HOST, Peer().play((closes, found(free_port()))).port, "a", "get()J")
    check_sent(program)


# What a call sends: the protocol's opening, and the messages' beginnings and ends.
OPENING = b"JRMI\0\2K" + wire("=127.0.0.1 00000000")
MESSAGE = wire("50 ACED0005 77")
OBJECT = wire("0000000000000010 00000007 0000000000000009 0000")
COLLECTOR = wire("22 0000000000000002 0000000000000000000000000000")
DIRTY, CLEAN = (COLLECTOR + wire(f"{operation} F6B6898D8BF28643") for operation in ("00000001", "00000000"))
LOOKUP_A = MESSAGE + wire("22 0000000000000000 0000000000000000000000000000 00000002 44154DC9D4E63BDF 74 =a")
ADD_5 = wire("2A") + OBJECT + wire("FFFFFFFF DE3EC51A3025A10E 0000000000000005")
# The number of the first lease call, and the duration that it asks for; the number of the next one, and its end, which is weak.
FIRST_DIRTY = wire("77 08 8000000000000000"), wire("00000000000927C0")
FIRST_CLEAN = wire("77 08 8000000000000001"), wire("77 01 00")
ADDRESS = wire("75 72 =[B ACF317F8060854E0 02 0000 70 78 70 00000008")


def address_of(message):
    """The address of the client that a lease call names."""
    return message.partition(ADDRESS)[2][:8]


class Sent:
    """What a call sends on the registry's link and on that of the object's server, and what the first had taken when the lease was granted."""

    def __init__(self):
        self.first, self.second, self.early = b"", b"", None
        self.open_links = 2

    def registry(self, link, data):
        """Answers the lookup, and keeps what comes."""
        closes_half(link, data)
        while more := link.recv(65536):
            self.first += more
        self.open_links -= 1

    def server(self, link, data):
        """Grants the lease late and answers the rest, and keeps what comes."""
        link.sendall(ACK)
        while FIRST_DIRTY[1] not in self.second:
            self.second += link.recv(65536)
        time.sleep(0.3)
        self.early = self.first
        closes_half(link, data)
        while more := link.recv(65536):
            self.second += more
        self.open_links -= 1


def check_sent(program):
    """The bytes of a call, link by link: the lookup is acknowledged once the lease is granted, and the object given up at the end."""
    with check("what a call sends on both links"):
        sent, peer = Sent(), Peer()
        peer.play((sent.registry, found(peer.port)), (sent.server, GRANTED + FIVE + VOID))
        seen = ran(program, "call", HOST, peer.port, "a", "add(J)J", 5)
        want(f"seen {seen}", seen == (0, "5\n", ""))
        until(PATIENCE, lambda: sent.open_links == 0)
        want(f"sent to the registry before the lease was granted: {sent.early}", sent.early == OPENING + LOOKUP_A)
        want(f"sent to the registry: {sent.first}", sent.first == OPENING + LOOKUP_A + b"\x54" + wire(UID))
        begin, *messages = sent.second.split(MESSAGE)
        want(f"sent to the object's server: {sent.second}", begin == OPENING and len(messages) == 3)
        dirty, call, clean = messages
        want(f"another dirty call: {dirty}", dirty.startswith(DIRTY) and all(it in dirty for it in FIRST_DIRTY))
        want(f"another call: {call}", call == ADD_5)
        want(f"another clean call: {clean}", clean.startswith(CLEAN) and FIRST_CLEAN[0] in clean and clean.endswith(FIRST_CLEAN[1]))
        want("another client gives it up", len(address_of(dirty)) == 8 and address_of(dirty) == address_of(clean))


@contextlib.contextmanager
def silent_peers(program):
    """Runs whose peers say nothing, beside all other checks: each is given up after a while."""

    def check_silence(name, parts, *words):
        with check(name):
            start = time.monotonic()
            peer = Peer()
            peer.play(*parts(peer.port))
            seen = ran(program, words[0], HOST, peer.port, *words[1:], patience=SILENCE + PATIENCE)
            took = time.monotonic() - start
            want(f"seen {seen} after {took:.1f} s", seen == (3, "", "read fault\n") and SILENCE - 1 < took)

    runs = [
        ("list where nothing comes, for ever", lambda port: [(stays, b"")], "list"),
        ("call where no answer of the object comes, for ever", lambda port: [(stays, found(port)), (stays, ACK + GRANTED)], "call", "a", "get()J"),
    ]
    threads = [threading.Thread(target=check_silence, args=it) for it in runs]
    for it in threads:
        it.start()
    try:
        yield
    finally:
        for it in threads:
            it.join()


# The program's own server.


def outline_of(process):
    """The lines that a server prints at its end."""
    output, errors = process.communicate(timeout=PATIENCE)
    want(f"status {process.returncode} and errors {errors}", (process.returncode, errors) == (0, b""))
    return output.decode().splitlines()


@contextlib.contextmanager
def two_programs(program, *words):
    """What a call of the program's own server, which serves its two links alone, gave, and the lines that the server prints at its end."""
    port, answers, lines = free_port(), [], []
    server = subprocess.Popen([program, "serve", str(port), "2"], stdin=subprocess.DEVNULL, stdout=subprocess.PIPE, stderr=subprocess.PIPE)

    def is_answered():
        answers.append(ran(program, "call", HOST, port, *words))
        return answers[-1] != (3, "", "dial fault\n")

    try:
        with check(f"call of the program's own server: {' '.join(map(str, words))}"):
            until(PATIENCE, is_answered)
            lines += outline_of(server)
        yield port, answers[-1:], lines
    finally:
        server.kill()
        server.wait()


# The sample's objects, in the outline of a server in which no call runs and no client holds any.
SAMPLE = [f"object {16 + kind} kind {kind} pinned running 0 awaiting 0 held 0 names 1" for kind in range(3)]


def check_two_programs(program):
    """The program calls the program: one call each, and what the server has of it."""
    with two_programs(program, "counter", "add(J)J", 5) as (_, seen, lines), check("its outline: the six events of a call, and the client's lease"):
        want(f"seen {seen}", seen == [(0, "5\n", "")])
        want(f"other lines: {lines}", len(lines) == 8 and re.fullmatch(r"events 14 units 16 now \d+", lines[0]) and re.fullmatch(r"lease \w{16}@\S+ until \d+", lines[4]))
        want(f"other objects: {lines}", lines[1:4] == SAMPLE)
    with two_programs(program, "maker", "make()Lsample/Counter;") as (port, seen, lines), check("its outline: the object that was made is withdrawn"):
        want(f"seen {seen}", len(seen) == 1 and seen[0][0] == 0 and re.fullmatch(rf"ref {HOST} {port} 19:-?\d+/\d+/0\n", seen[0][1]))
        want(f"other objects: {lines}", [it for it in lines if it.startswith("object ")] == SAMPLE)
        want(f"other withdrawals: {lines}", [it.split()[:3] for it in lines if it.startswith("withdrawn ")] == [["withdrawn", "19", "place"]])


def check_full(program, *words):
    """A run whose output finds no room says so, after it has asked the server."""
    with check(f"{words[0]} to a full disk"), open("/dev/full", "wb", buffering=0) as out:
        run = subprocess.run([program, *map(str, words)], stdin=subprocess.DEVNULL, stdout=out, stderr=subprocess.PIPE, timeout=PATIENCE, check=False)
        seen = run.returncode, run.stderr
        want(f"status and errors {seen}", seen == (4, b"write fault\n"))


def check_own_server(program):
    """Each command against the program's own server."""
    port = free_port()
    server = subprocess.Popen([program, "serve", str(port), "100", "open"], stdin=subprocess.DEVNULL, stdout=subprocess.PIPE, stderr=subprocess.PIPE)
    at = [HOST, port]
    try:
        until(PATIENCE, lambda: listens(port))
        check_run("list of the program's own server", (0, "echo\ncounter\nmaker\n", ""), program, "list", *at)
        check_pattern("lookup there", 0, rf"{HOST} {port} 16:-?\d+/\d+/0\n", "", program, "lookup", *at, "echo")
        check_run("bind there", (0, "ok\n", ""), program, "bind", *at, "other", "counter")
        check_run("call of what was bound there", (0, "-7\n", ""), program, "call", *at, "other", "add(J)J", "~7")
        check_run("unbind there", (0, "ok\n", ""), program, "unbind", *at, "other")
        check_run("echo there", (0, '"a"\n', ""), program, "call", *at, "echo", "echo(Ljava/lang/Object;)Ljava/lang/Object;", "a")
        check_pattern("make there", 0, rf"ref {HOST} {port} 19:-?\d+/\d+/0\n", "", program, "call", *at, "maker", "make()Lsample/Counter;")
        check_pattern("a sum past the ends of a long there", 7, "", "remote fault java.rmi.RemoteException: java.lang.ArithmeticException: overflow\n", program, "call", *at, "counter", "add(J)J", "~9223372036854775808")
        for words in (["list", *at], ["lookup", *at, "echo"], ["bind", *at, "other", "echo"], ["unbind", *at, "other"], ["call", *at, "counter", "get()J"]):
            check_full(program, *words)
        check_run("unbind of an unknown name there", (7, "", "remote fault java.rmi.RemoteException: java.rmi.NotBoundException: other\n"), program, "unbind", *at, "other")
    finally:
        server.kill()
        server.wait()


# All of it.


def check_client(java, program):
    """All checks of the commands that call servers."""
    check_nobody(program)
    check_peers(program)
    check_object_peers(program)
    check_two_programs(program)
    check_own_server(program)
    with registry_of(java) as port, KindsServer(java) as own, KindsServer(java, flags=JDK_FLAGS) as brief, KindsServer(java, host="localhost", registry=port) as outside:
        for it in (own, brief, outside):
            it.await_ready()
        check_leases(program, own)
        check_answers(program, own)
        check_limits(program, own)
        for it in (own, outside):
            check_names(program, it)
        check_killed(program, brief)
        check_dying(program, outside)


def check_java_client(java):
    """Java's own client makes the calls that have one line as an answer, and sees what the table says."""
    with KindsServer(java) as server:
        server.await_ready()
        wanted = [line for *_, line in LINES] + [f"remote fault {fault}" for *_, fault in FAULTS]
        asked = ["\t".join([name, method, *arguments]).replace("\n", "") for name, method, arguments, _ in LINES + FAULTS]
        words = java.words("KindsClient", server.host, server.port)
        run = subprocess.run(words, input="\n".join(asked).encode(), stdout=subprocess.PIPE, stderr=subprocess.STDOUT, timeout=2 * PATIENCE, check=False)
        seen = run.stdout.decode(errors="replace").splitlines()
        for call, line, answer in zip(asked, wanted, seen + len(wanted) * ["no line"]):
            with check("Java's client: " + call.replace("\t", " ")[:100]):
                want(f"seen {answer}, wanted {line}", answer == line)
