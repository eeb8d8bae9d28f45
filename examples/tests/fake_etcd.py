"""A stand-in for one member of etcd: as much of its JSON gateway as examples/replicas/log.py speaks, in this process. Any call may be refused, or done and not answered."""
from __future__ import annotations

import base64
import http.server
import json
import os
import sys
import threading
import unittest
from typing import Any

Part = dict[str, Any]

def plain(text: str) -> str:
    return base64.b64decode(text).decode()

def spelled(text: str) -> str:
    return base64.b64encode(text.encode()).decode()

class Etcd(http.server.ThreadingHTTPServer):
    daemon_threads = True

    def __init__(self) -> None:
        if "NO_LOOPBACK" in os.environ:
            raise unittest.SkipTest("the address 127.0.0.1")
        super().__init__(("127.0.0.1", 0), Gateway)
        self.url = f"http://127.0.0.1:{self.server_address[1]}"
        self.changed = threading.Condition()
        # Each key has its value, and the revisions in which it was made and changed last.
        self.keys: dict[str, tuple[str, int, int]] = {}
        self.events: list[tuple[int, str, str | None]] = []
        self.revision, self.refusal, self.is_mute, self.is_over = 1, "", False, False
        self.thread = threading.Thread(target=self.serve_forever, args=(0.02,), daemon=True)
        self.thread.start()

    def end(self) -> None:
        with self.changed:
            self.is_over = True
            self.changed.notify_all()
        self.shutdown()
        self.server_close()
        self.thread.join()

    def handle_error(self, *of: Any) -> None:
        """A client that has gone is no fault."""
        if not isinstance(sys.exception(), OSError):
            super().handle_error(*of)

    def put(self, key: str, value: str) -> None:
        with self.changed:
            self.revision += 1
            self.set(key, value)

    def set(self, key: str, value: str | None) -> None:
        made = self.keys.get(key, ("", self.revision, 0))[1]
        self.keys.pop(key, None)
        if value is not None:
            self.keys[key] = (value, made, self.revision)
        self.events.append((self.revision, key, value))
        self.changed.notify_all()

    def between(self, first: str, end: str | None) -> list[str]:
        return sorted(key for key in self.keys if (key == first if end is None else first <= key < end))

    def transact(self, request: Part) -> Part:
        with self.changed:
            holds = all(self.compare(each) for each in request.get("compare", []))
            parts = request.get("success" if holds else "failure", [])
            if any("requestRange" not in part for part in parts):
                self.revision += 1
            responses = [self.part(part) for part in parts]
            return {"header": {"revision": str(self.revision)}, **({"succeeded": True} if holds else {}), "responses": responses}

    def compare(self, each: Part) -> bool:
        found = self.keys.get(plain(each["key"]))
        if each["target"] == "CREATE":
            return (found[1] if found else 0) == int(each["createRevision"])
        return found is not None and found[0] == plain(each["value"])

    def part(self, part: Part) -> Part:
        [(kind, request)] = part.items()
        first, end = plain(request["key"]), plain(request["range_end"]) if "range_end" in request else None
        if kind == "requestPut":
            self.set(first, plain(request.get("value", "")))
            return {"response_put": {}}
        keys = self.between(first, end)
        if kind == "requestDeleteRange":
            for key in keys:
                self.set(key, None)
            return {"response_delete_range": {"deleted": str(len(keys))}}
        limit = int(request.get("limit", "0")) or len(keys)
        return {"response_range": {"kvs": [{"key": spelled(key), "value": spelled(self.keys[key][0])} for key in keys[:limit]], "count": str(len(keys))}}

class Gateway(http.server.BaseHTTPRequestHandler):
    protocol_version = "HTTP/1.1"
    server: Etcd

    def log_message(self, *_: object) -> None:
        pass

    def do_POST(self) -> None:
        request = json.loads(self.rfile.read(int(self.headers["Content-Length"])))
        path = self.path.removeprefix("/v3/")
        if self.server.refusal:
            self.answer({"error": self.server.refusal, "code": 8, "message": self.server.refusal}, 429)
        elif path == "watch":
            self.watch(request["create_request"])
        else:
            answer = self.server.transact(request) if path == "kv/txn" else {"ID": "7", "TTL": request.get("TTL", "0")} if path == "lease/grant" else {"result": {"ID": "7", "TTL": "9"}}
            if self.server.is_mute:
                self.close_connection = True
            else:
                self.answer(answer)

    def answer(self, answer: Part, status: int = 200) -> None:
        body = json.dumps(answer).encode()
        self.send_response(status)
        self.send_header("Content-Length", str(len(body)))
        self.end_headers()
        self.wfile.write(body)

    def watch(self, request: Part) -> None:
        first, end, revision = plain(request["key"]), plain(request["range_end"]), int(request["start_revision"])
        self.send_response(200)
        self.send_header("Transfer-Encoding", "chunked")
        self.end_headers()
        told, events = 0, self.server.events
        try:
            self.line({"result": {"created": True}})
            while not self.server.is_over:
                with self.server.changed:
                    if len(events) == told:
                        self.server.changed.wait(1)
                    new, told = events[told:], len(events)
                for number, key, value in new:
                    if number >= revision and first <= key < end:
                        kv = {"key": spelled(key), "value": spelled(value or "")}
                        self.line({"result": {"events": [{"kv": kv} if value is not None else {"type": "DELETE", "kv": kv}]}})
        except OSError:
            pass
        self.close_connection = True

    def line(self, answer: Part) -> None:
        line = json.dumps(answer).encode() + b"\n"
        self.wfile.write(b"%x\r\n%s\r\n" % (len(line), line))
        self.wfile.flush()
