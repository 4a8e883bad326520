"""Uses the crates from another repository: a service in a repository of its own, over copies of the folders that docs/SERVICE.md names.

    python3 interop/elsewhere.py FOLDER

makes that repository in a new folder. The must-fail edits stay here. What `rt lib` has proved of the crates comes with them, so that it need not be proved
again there. A kit whose `rt ci` keeps what passed on the machine takes that from here, too.
"""
import os
import re
import shutil
import subprocess
import sys
import tempfile

from harness import TOP, check, say, want

# The service's crate, of which example its files are a copy, and its Java client.
CRATE, EXAMPLE, CLIENT = "my_ledger", "example_ledger", "LedgerClient"
# How many seconds it may take to prove, build and run the service alone.
BUILD = 1500


def lines_of():
    """The lines of crates.txt by the crates that they are of."""
    found = {}
    with open(f"{TOP}/crates.txt", encoding="utf-8") as lines:
        for line in lines:
            head, colon, below = line.partition("#")[0].partition(":")
            if colon:
                found[head.split()[0]] = (head.split()[1:], below.split())
    return found


def folders():
    """The folders of crates that docs/SERVICE.md says to copy, the lowest first."""
    with open(f"{TOP}/docs/SERVICE.md", encoding="utf-8") as text:
        said = text.read()
    step = re.search(r"1\. Copy these folders of `crates/`:(.*?)\n2\. ", said, re.S)
    return re.findall(r"`(\w+)`", step[1])


def gate_keeps():
    """Whether the kit's `rt ci` keeps what passed on this machine, so that it need not be proved again in another repository."""
    told = subprocess.run(["rt", "help"], stdin=subprocess.DEVNULL, stdout=subprocess.PIPE, stderr=subprocess.STDOUT, check=False)
    return b"--anew" in told.stdout


def unproved():
    """Those of the folders of which `rt lib` keeps no proof here. The gate keeps none in them."""
    return [name for name in folders() if not os.path.exists(f"{TOP}/crates/{name}/out/rlib/stamp")]


def write(path, text):
    with open(path, "w", encoding="utf-8") as file:
        file.write(text)


def other_work(folder, names):
    """What is not copied of a crate's folder: its edits, and of what was made of it, all but the proved library."""
    return [name for name in names if name == "must-fail" or os.path.basename(folder) == "out" and name != "rlib"]


def copy_file(source, to):
    """Copies a file. One of a proved library is large and never changed in place, so it is linked where it can be."""
    if "/out/rlib/" in source:
        try:
            return os.link(source, to)
        except OSError:
            pass
    return shutil.copy2(source, to)


def make_repository(folder):
    """Makes a repository with the service's crate and the crates below it."""
    lines = lines_of()
    names = folders()
    for name in names:
        shutil.copytree(f"{TOP}/crates/{name}", f"{folder}/crates/{name}", ignore=other_work, copy_function=copy_file)
    shutil.copytree(f"{TOP}/crates/{EXAMPLE}", f"{folder}/crates/{CRATE}", ignore=shutil.ignore_patterns("out"))
    listed = [*((name, *lines[name]) for name in names), (CRATE, *lines[EXAMPLE])]
    write(f"{folder}/crates.txt", "".join(f"{' '.join([name, *words])}: {' '.join(of)}\n" for name, words, of in listed))
    shutil.copy(f"{TOP}/HANDLES", folder)
    write(f"{folder}/.gitignore", "out/\n")
    subprocess.run(["git", "init", "-q"], cwd=folder, check=True)


def build_service(folder, by_gate):
    """Proves and builds the service in its repository, and runs it with the clients that were recorded: by the gate, or by itself."""
    words, place = (["rt", "ci"], folder) if by_gate else (["rt", "run"], f"{folder}/crates/{CRATE}")
    ran = subprocess.run(words, cwd=place, stdin=subprocess.DEVNULL, stdout=subprocess.PIPE, stderr=subprocess.STDOUT, timeout=BUILD, check=False)
    said = ran.stdout.decode(errors="replace")
    done = re.search(r"^\d+ passed, 0 failed", said.splitlines()[-1]) if by_gate else f"rt: running out/{CRATE}" in said
    want(f"status {ran.returncode}: {said.splitlines()[-5:]}", ran.returncode == 0 and done)


def check_elsewhere(java, server_of):
    """The service is proved and built in the other repository, and a Java client calls it."""
    by_gate = gate_keeps()
    missing = [] if by_gate else unproved()
    if missing:
        say(f"left out: a service in a repository of its own, since no proof of {missing[0]} is kept; `rt lib` in crates/rmi_server keeps them")
        return
    with tempfile.TemporaryDirectory(prefix="rmi-elsewhere-") as folder:
        with check("a service in a repository of its own is proved"):
            make_repository(folder)
            build_service(folder, by_gate)
        server = server_of([f"{folder}/crates/{CRATE}/out/{CRATE}", "PORT", "60"])
        try:
            java.checks(CLIENT, server.port)
        finally:
            server.stop()


def main(words):
    if len(words) != 1 or os.path.exists(words[0]):
        print("usage: python3 interop/elsewhere.py FOLDER, which is not there yet", file=sys.stderr)
        return 1
    make_repository(os.path.abspath(words[0]))
    return 0


if __name__ == "__main__":
    sys.exit(main(sys.argv[1:]))
