"""A proxy between clients and a service, which loses answers or gives its own."""
import http.client
import threading
from http.server import BaseHTTPRequestHandler, ThreadingHTTPServer

from harness import free_port


class Proxy:
    """A proxy before a service. For each request `fate(number, body)` is what becomes of it: None, or a status and headers of the proxy's own,
    or "lost": the service makes it, and the answer is lost."""

    def __init__(self, server, fate):
        self.came, self.last = [], b""  # the requests, and the last one's body
        proxy = self

        class Handler(BaseHTTPRequestHandler):
            protocol_version = "HTTP/1.1"

            def do_GET(self):
                proxy.came.append((self.command, self.path, self.headers.get("Idempotency-Key")))
                proxy.last = body = self.rfile.read(int(self.headers.get("Content-Length") or 0))
                said = fate(len(proxy.came), body)
                if said is None or said == "lost":
                    passed = http.client.HTTPConnection("127.0.0.1", server.port)
                    passed.request(self.command, self.path, body, dict(self.headers))
                    answer = passed.getresponse()
                    status, headers, body = answer.status, {}, answer.read()
                else:
                    (status, headers), body = said, b'{"error": "the proxy says so"}'
                if said == "lost":
                    self.close_connection = True
                    return
                self.send_response(status)
                for name, value in {**headers, "Content-Length": str(len(body))}.items():
                    self.send_header(name, value)
                self.end_headers()
                self.wfile.write(body)

            do_POST = do_GET

            def log_message(self, *_):
                pass

        self.http = ThreadingHTTPServer(("127.0.0.1", free_port()), Handler)
        self.url = "http://127.0.0.1:%d" % self.http.server_address[1]
        threading.Thread(target=self.http.serve_forever, daemon=True).start()
