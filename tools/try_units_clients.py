#!/usr/bin/env python3
"""Clients of roadmark.service, for steps of tools/try_units.sh.

    tools/try_units_clients.py kill SOCKET CLIENTS KILLS        they change arcs while the server is killed (-9): each last change that was told is there afterwards
    tools/try_units_clients.py queue PORT CLIENTS               so many are served by haproxy, and one more is told the end within seconds
"""
import socket
import ssl
import subprocess
import sys
import threading
import time

ARCS = 8

class Client(threading.Thread):
    """Sets one arc again and again, and keeps what was told of it, the version of that, and what was sent behind it."""

    def __init__(self, path: str, arc: int) -> None:
        super().__init__(daemon=True)
        self.path, self.arc, self.told, self.version, self.sent, self.count, self.is_over = path, arc, 0, 0, 0, 0, False
        self.start()

    def run(self) -> None:
        while not self.is_over:
            try:
                self.session()
            except OSError:
                pass
            time.sleep(0.05)

    def session(self) -> None:
        with socket.socket(socket.AF_UNIX) as connection:
            # Long, since a line of a session that was given up could be carried out behind one of the next.
            connection.settimeout(300)
            connection.connect(self.path)
            answers = connection.makefile("r")
            while not self.is_over:
                self.sent += 1
                connection.sendall(f"set {self.arc} {self.sent}\n".encode())
                answer = answers.readline()
                if not answer.startswith("ok "):
                    return
                self.told, self.version, self.count = self.sent, int(answer.split()[1]), self.count + 1

def length_of(path: str, arc: int, version: int) -> int:
    """In this version or a later one, since another session may be shown an older one for a while. By a session that is tried again while the server is being started."""
    until = time.monotonic() + 300
    while True:
        try:
            with socket.socket(socket.AF_UNIX) as connection:
                connection.settimeout(60)
                connection.connect(path)
                connection.sendall(f"until {version}\narc {arc}\n".encode())
                answers = connection.makefile("r")
                if answers.readline().startswith("v "):
                    answers.readline()
                    return int(answers.readline().split()[4])
        except (OSError, IndexError):
            pass
        if time.monotonic() > until:
            raise SystemExit(f"arc {arc} was not told")
        time.sleep(0.5)

def kill(path: str, clients: int, kills: int) -> bool:
    writers = [Client(path, 1 + number % ARCS) for number in range(clients)]
    for _ in range(kills):
        time.sleep(3)
        subprocess.run(["systemctl", "kill", "--signal=KILL", "roadmark.service"], check=True)
    time.sleep(4)
    # On a machine that has much else to do some have not had a turn yet.
    until = time.monotonic() + 60
    while time.monotonic() < until and not all(writer.count for writer in writers):
        time.sleep(0.2)
    for writer in writers:
        writer.is_over = True
    for writer in writers:
        writer.join(300)
    lost = [arc for arc in range(1, 1 + min(clients, ARCS)) if not is_kept(path, arc, [writer for writer in writers if writer.arc == arc])]
    print(f"        {sum(writer.count for writer in writers)} changes told, lost at the arcs {lost}")
    return not lost and all(writer.count for writer in writers)

def is_kept(path: str, arc: int, writers: list[Client]) -> bool:
    """The arc has what one of its clients was told last, or has sent since. Where none was told anything, nothing can be lost."""
    length = length_of(path, arc, max(writer.version for writer in writers))
    return not any(writer.told for writer in writers) or any(writer.told <= length <= writer.sent for writer in writers)

def by_haproxy(port: int) -> ssl.SSLSocket:
    context = ssl.create_default_context(cafile="/try/known.crt")
    context.check_hostname = False
    context.load_cert_chain("/try/known.client.pem")
    connection = context.wrap_socket(socket.create_connection(("127.0.0.1", port), 10))
    connection.settimeout(20)
    connection.sendall(b"dist 1 6\n")
    return connection

def queue(port: int, clients: int) -> bool:
    held = [by_haproxy(port) for _ in range(clients)]
    served = [connection.recv(100).startswith(b"v ") for connection in held]
    begun = time.monotonic()
    answer = by_haproxy(port).recv(100)
    seconds = time.monotonic() - begun
    print(f"        {sum(served)} served; the next was told {answer!r} after {seconds:.1f} s")
    return all(served) and answer == b"" and seconds < 8

def main() -> int:
    if sys.argv[1] == "kill":
        return 0 if kill(sys.argv[2], int(sys.argv[3]), int(sys.argv[4])) else 1
    return 0 if queue(int(sys.argv[2]), int(sys.argv[3])) else 1

if __name__ == "__main__":
    sys.exit(main())
