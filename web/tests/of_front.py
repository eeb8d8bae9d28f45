"""Tests of web/nginx.conf: nginx with it before the gateway, by TLS."""
import http.client
import json
import pathlib
import re
import shutil
import socket
import ssl
import subprocess
import threading

from checks import WEB, Checks, call, equal, skip, true
from stand import TOKEN, Stand


def free_port() -> int:
    with socket.socket() as line:
        line.bind(("127.0.0.1", 0))
        return line.getsockname()[1]


class Front:
    """nginx, with ports and a certificate of its own in place of those of the file."""

    def __init__(self, folder: pathlib.Path, stand: Stand) -> None:
        self.folder, self.stand, self.port = folder, stand, free_port()
        folder.mkdir()
        call("openssl", "req", "-x509", "-newkey", "rsa:2048", "-nodes", "-days", "2", "-subj", "/CN=localhost", "-addext", "subjectAltName=IP:127.0.0.1", "-keyout", folder / "key.pem",
             "-out", folder / "fullchain.pem")
        site = (WEB / "nginx.conf").read_text().replace("/etc/ssl/roadmark", str(folder)).replace("127.0.0.1:5000", f"127.0.0.1:{stand.port}")
        site = site.replace("listen 443", f"listen 127.0.0.1:{self.port}").replace("listen 80;", f"listen 127.0.0.1:{free_port()};")
        (folder / "site.conf").write_text(site)
        paths = "".join(f"{kind}_temp_path {folder}/{kind};" for kind in ("client_body", "proxy", "fastcgi", "uwsgi", "scgi"))
        (folder / "nginx.conf").write_text(f"daemon off; pid {folder}/pid; error_log {folder}/errors; events {{ worker_connections 4096; }}\n"
                                           f"http {{ access_log off; {paths} include {folder}/site.conf; }}\n")
        call("nginx", "-t", "-c", folder / "nginx.conf")
        self.child = subprocess.Popen(["nginx", "-c", str(folder / "nginx.conf")], stderr=subprocess.DEVNULL)
        self.trust = ssl.create_default_context(cafile=folder / "fullchain.pem")

    def ask(self, method: str, path: str, body: bytes | None = None, headers: dict[str, str] = {}) -> tuple[int, bytes, http.client.HTTPMessage]:
        connection = http.client.HTTPSConnection("127.0.0.1", self.port, timeout=60, context=self.trust)
        try:
            connection.request(method, path, body, headers)
            response = connection.getresponse()
            return response.status, response.read(), response.headers
        finally:
            connection.close()

    def answers(self, table: str) -> None:
        self.stand.until(lambda: self.reached(), "nginx is there")
        status, body, headers = self.ask("GET", "/" + table)
        equal((status, json.loads(body), "X-Roadmark-Version" in headers), (200, self.stand.get(table).json, True))
        equal(self.ask("POST", "/changes", b'{"changes": [{"close": 1}]}')[0], 401)
        done = self.ask("POST", "/changes", b'{"changes": [{"close": 1}, {"reopen": 1}]}', {"Authorization": f"Bearer {TOKEN}"})
        equal(done[0], 200, str(done[1]))
        equal(self.ask("POST", "/changes", b"x" * 100_000)[0], 413)

    def reached(self) -> bool:
        try:
            return self.ask("GET", "/version")[0] == 200
        except OSError:
            return False

    def events(self) -> None:
        connection = http.client.HTTPSConnection("127.0.0.1", self.port, timeout=60, context=self.trust)
        connection.request("GET", "/events")
        stream = connection.getresponse()
        true(stream.readline().startswith(b"event: state"), "no event at once")
        threading.Timer(0.5, self.stand.change, [{"close": 2}]).start()
        true(any(b'"closed": [2]' in line for line in iter(stream.readline, b"")), "the change was not told")
        connection.close()
        self.stand.change({"reopen": 2})

    def limits(self) -> None:
        """More than a burst of requests is refused with 429, and a little later all is well."""
        connection, statuses = http.client.HTTPSConnection("127.0.0.1", self.port, timeout=60, context=self.trust), []
        for _ in range(200):
            connection.request("POST", "/suppose", b"{}")
            response = connection.getresponse()
            response.read()
            statuses.append(response.status)
        connection.close()
        true(statuses.count(429) > 10 and set(statuses) == {400, 429}, f"{sorted(set(statuses))}")
        self.stand.until(lambda: self.ask("POST", "/suppose", b"{}")[0] == 400, "the limit has passed")

    def end(self) -> None:
        self.child.terminate()
        equal(self.child.wait(30), 0, "status of nginx")
        wrong = [line for line in (self.folder / "errors").read_text().splitlines() if re.search(r"\[(warn|crit|alert|emerg)\]", line)]
        equal(wrong, [])


def try_front(checks: Checks, folder: pathlib.Path, stand: Stand, table: str) -> None:
    if not (shutil.which("nginx") and shutil.which("openssl")):
        skip("nginx in front: nginx or openssl is not there (web/install.sh --tests)")
        return
    front = Front(folder / "front", stand)
    try:
        for name, check in (("answers", lambda: front.answers(table)), ("events", front.events), ("limits", front.limits), ("end", front.end)):
            checks.run(f"front: {name}", check)
    finally:
        if front.child.poll() is None:
            front.child.kill()
            front.child.wait()
