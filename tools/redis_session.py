#!/usr/bin/env python3
"""Lets a real client of Redis talk to the cluster, and compares what it is told.

    tools/redis_session.py CURP [CURPD]    CURP is the program, as `rt run` in crates/curp leaves it in crates/curp/out/curp

It needs Debian's packages socat and redis-tools. socat serves one connection of a port of this machine with `curp resp`,
and redis-cli sends its commands over it, each once it has the reply to the one before. It prints what was sent and what
came, and ends with 1 where a reply is another than the one that is wanted. With CURPD, the program of a node, it does the
same at the port of a cluster that `cluster/run` runs.
"""

import contextlib
import os
import socket
import subprocess
import sys
import tempfile
import time

SESSION = [
    ("set a 1", "OK"),
    ("get a", '"1"'),
    ("incr n", "(integer) 1"),
    ("incr n", "(integer) 2"),
    ("incrby n 1", "(integer) 3"),
    ("append a 0", "(integer) 2"),
    ("mset b 1 c 2", "OK"),
    ("get c", '"2"'),
    ("get d", "(nil)"),
    ("del b", "(integer) 1"),
    ("del b", "(integer) 0"),
    ("setnx d 4", "(integer) 1"),
    ("setnx d 5", "(integer) 0"),
    ("condnew e 5", "(integer) 1"),
    ("condput e 4 6", "(integer) 0"),
    ("condput e 5 6", "(integer) 1"),
    # The store counts in numbers of eight bytes, so a text of digits is none.
    ("incr a", "(error) ERR not a number"),
    ("incrby n 2", "(error) ERR increment by 1 only"),
    ("set a", "(error) ERR arguments"),
    ("mset a 1 a 2", "(error) ERR key twice"),
    ("ping", "(error) ERR unknown command"),
]


def free_port():
    with socket.socket() as one:
        one.bind(("127.0.0.1", 0))
        return one.getsockname()[1]


def wait_for(port):
    """Waits until a port is open, for at most half a minute."""
    for _ in range(300):
        with contextlib.suppress(OSError), socket.create_connection(("127.0.0.1", port)):
            return
        time.sleep(0.1)


def replies(curp, words):
    """What redis-cli prints for the session, line by line, where `curp resp` runs with these words."""
    port = free_port()
    served = f"EXEC:{curp} resp {words}".strip()
    server = subprocess.Popen(["socat", f"TCP-LISTEN:{port},bind=127.0.0.1,reuseaddr,nodelay", served])
    # It serves one connection, so nobody may look whether it is there.
    time.sleep(1)
    return told_by(server, port)


def replies_of_cluster(curpd):
    """The same for a port of `cluster/run`."""
    port = free_port()
    run = os.path.join(os.path.dirname(os.path.abspath(__file__)), "..", "cluster", "run")
    with tempfile.TemporaryDirectory() as folder:
        words = [run, folder, "--clients", "3", "--redis-port", str(port), "--curpd", curpd]
        server = subprocess.Popen(words, stdin=subprocess.DEVNULL)
        wait_for(port)
        return told_by(server, port)


def told_by(server, port):
    """What redis-cli prints for the session. The server is ended then."""
    commands = "".join(f"{command}\n" for command, _ in SESSION)
    client = ["redis-cli", "--no-raw", "-2", "-p", str(port)]
    try:
        told = subprocess.run(client, input=commands, capture_output=True, text=True, timeout=60)
        return told.stdout.splitlines()
    finally:
        server.terminate()
        server.wait()


def main():
    if len(sys.argv) not in (2, 3):
        sys.exit(__doc__)
    curp, *curpd = map(os.path.abspath, sys.argv[1:])
    served = ("", "--f 1 --every 1", "--f 5 --every 3")
    sessions = [(f"curp resp {words}".strip(), replies, (curp, words)) for words in served]
    sessions += [("cluster/run", replies_of_cluster, (path,)) for path in curpd]
    good = True
    for name, told, words in sessions:
        print(name)
        lines = told(*words)
        good &= len(lines) == len(SESSION)
        for (command, wanted), line in zip(SESSION, lines):
            good &= line == wanted
            print(f"    > {command}\n    {line}" + ("" if line == wanted else f"    wanted {wanted}"))
    sys.exit(0 if good else 1)


if __name__ == "__main__":
    main()
