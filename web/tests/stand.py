"""A server and a gateway for tests, that may be killed and started again."""
import http.client
import json
import os
import pathlib
import resource
import signal
import subprocess
import time
from typing import Any, NamedTuple

from checks import PATIENCE, PYTHON, WEB, call, true

CHANGING, ASKING, TOKEN = 2, 13, "a-token-for-the-tests"


class Answer(NamedTuple):
    status: int
    headers: http.client.HTTPMessage
    body: bytes

    @property
    def json(self) -> Any:
        return json.loads(self.body)

    @property
    def version(self) -> int:
        return int(self.headers["X-Roadmark-Version"])


class Stand:
    """A store of a network's folder, `roadmark serve` over it, and the gateway before it."""

    def __init__(self, folder: pathlib.Path, program: pathlib.Path, network: pathlib.Path, *options: object) -> None:
        self.folder, self.program, self.network, self.options = folder, program, network, options
        folder.mkdir()
        self.store, self.input, self.port = folder / "roads.store", folder / "input", 0
        self.server: subprocess.Popen | None = None
        self.gateway: subprocess.Popen | None = None
        call(program, "create", self.store, network / "network.gr", network / "landmarks.ss")
        changing, asking = (call(WEB.parent / "examples" / "pairs.sh", folder / name, count).stdout.split() for name, count in (("pairs", CHANGING), ("asking", ASKING)))
        self.pipes = [*changing, "--asking", *asking]
        os.mkfifo(self.input)
        self.held = os.open(self.input, os.O_RDWR)
        (folder / "token").write_text(TOKEN + "\n")

    def __enter__(self) -> "Stand":
        self.start_server()
        self.start_gateway()
        return self

    def __exit__(self, *_: object) -> None:
        for child in (self.gateway, self.server):
            if child is not None and child.poll() is None:
                child.kill()
                child.wait(PATIENCE)
        os.close(self.held)

    def start_server(self, most_bytes: int | None = None) -> None:
        """With a limit of bytes in a file each write behind it fails."""
        limit = None if most_bytes is None else lambda: resource.setrlimit(resource.RLIMIT_FSIZE, (most_bytes, most_bytes))
        with open(self.folder / "server.errors", "a") as errors:
            self.server = subprocess.Popen([self.program, "serve", self.store, *self.pipes], stdin=os.open(self.input, os.O_RDONLY | os.O_NONBLOCK), stdout=subprocess.DEVNULL, stderr=errors,
                                           restore_signals=False, preexec_fn=limit)

    def start_gateway(self, *options: object, network: pathlib.Path | None = None) -> None:
        """Over another network's folder it never is healthy, so that is not waited for."""
        with open(self.folder / "gateway.errors", "a") as errors:
            self.gateway = subprocess.Popen([PYTHON, WEB / "gateway.py", network or self.network, self.folder / "asking", "--changing", self.folder / "pairs", "--token",
                                             self.folder / "token", "--port", str(self.port),
                                             *map(str, self.options), *map(str, options)], stdout=subprocess.PIPE, stderr=errors, text=True)
        line = self.gateway.stdout.readline()
        true(line.startswith("gateway: http://127.0.0.1:"), f"the gateway didn't start: {(self.folder / 'gateway.errors').read_text()[-500:]}")
        self.port = int(line.rstrip("/\n").rsplit(":", 1)[1])
        if network is None:
            self.healthy()

    def kill_server(self, number: int = signal.SIGKILL) -> None:
        self.server.send_signal(number)
        if number == signal.SIGKILL:
            self.server.wait(PATIENCE)

    def healthy(self) -> None:
        self.until(lambda: self.get("healthz").status == 200, "the gateway is healthy")

    def until(self, holds: Any, what: str, seconds: float = PATIENCE) -> None:
        end = time.monotonic() + seconds
        while not holds():
            true(time.monotonic() < end, f"waited in vain until {what}")
            time.sleep(0.2)

    def ask(self, method: str, path: str, body: bytes | None = None, headers: dict[str, str] = {}) -> Answer:
        connection = http.client.HTTPConnection("127.0.0.1", self.port, timeout=PATIENCE)
        try:
            connection.request(method, "/" + path, body, headers)
            response = connection.getresponse()
            return Answer(response.status, response.headers, response.read())
        finally:
            connection.close()

    def get(self, path: str) -> Answer:
        return self.ask("GET", path)

    def post(self, path: str, body: Any, token: str | None = TOKEN) -> Answer:
        return self.ask("POST", path, json.dumps(body).encode(), {"Authorization": f"Bearer {token}"} if token else {})

    def change(self, *changes: dict[str, Any]) -> Answer:
        return self.post("changes", {"changes": list(changes)})

    def errors(self) -> str:
        return (self.folder / "gateway.errors").read_text()
