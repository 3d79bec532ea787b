"""What a script answers to requests of HTTP."""

import contextlib
import http.server


class Answering(http.server.BaseHTTPRequestHandler):
    """Answers a GET or a POST by the status and the bytes of a body that `found` returns, or not at all where that is None."""

    def found(self, body):
        """What is answered to this body of a request."""
        raise NotImplementedError

    def do_POST(self):
        body = self.rfile.read(int(self.headers["Content-Length"] or 0))
        found = self.found(body)
        if found is None:
            # (as of a server that isn't there)
            return
        status, data = found
        with contextlib.suppress(OSError):
            self.send_response(status)
            self.send_header("Content-Length", str(len(data)))
            self.end_headers()
            self.wfile.write(data)

    do_GET = do_POST

    def log_message(self, *_):
        pass
