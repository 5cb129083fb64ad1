"""Repositories over HTTP on the loopback address, by `git http-backend`."""

import os
import subprocess
import threading
from http.server import BaseHTTPRequestHandler, ThreadingHTTPServer


class Handler(BaseHTTPRequestHandler):
    """Hands each request to `git http-backend`, and its answer back."""

    speaks_version_2 = True

    def body(self, said: bytes) -> bytes:
        """What is sent of what was said."""
        return said

    def is_welcome(self) -> bool:
        """Whether the client is answered at all, as it isn't where a password is asked for."""
        return True

    def do_GET(self):
        if not self.is_welcome():
            self.send_response(401)
            self.send_header("WWW-Authenticate", 'Basic realm="here"')
            self.end_headers()
            return
        path, _, query = self.path.partition("?")
        given = self.rfile.read(int(self.headers.get("Content-Length") or 0))
        more = {"GIT_PROJECT_ROOT": self.server.root, "GIT_HTTP_EXPORT_ALL": "1", "PATH_INFO": path, "QUERY_STRING": query,
                "REQUEST_METHOD": self.command, "CONTENT_TYPE": self.headers.get("Content-Type", ""),
                "HTTP_CONTENT_ENCODING": self.headers.get("Content-Encoding", ""),
                "GIT_PROTOCOL": self.headers.get("Git-Protocol", "") if self.speaks_version_2 else "",
                "CONTENT_LENGTH": str(len(given))}
        ended = subprocess.run(["git", "http-backend"], input=given, capture_output=True, env={**os.environ, **more})
        head, _, body = ended.stdout.partition(b"\r\n\r\n")
        lines = [line.split(": ", 1) for line in head.decode().split("\r\n") if line]
        status = next((int(value.split(" ")[0]) for key, value in lines if key == "Status"), 200)
        self.send_response(status)
        for key, value in lines:
            if key != "Status":
                self.send_header(key, value)
        self.end_headers()
        self.wfile.write(self.body(body))

    do_POST = do_GET

    def log_message(self, *_):
        pass


def served(root, handler=Handler):
    """A server of the repositories below a folder, which runs until its `shutdown`, and its address."""
    server = ThreadingHTTPServer(("127.0.0.1", 0), handler)
    server.root = root
    threading.Thread(target=server.serve_forever, daemon=True).start()
    return server, f"http://127.0.0.1:{server.server_port}"
