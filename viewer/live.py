"""Serves the page of a run that goes on: at one link with a random token, on this machine alone, and only to be read."""
import http.server
import json
import secrets
import signal
import subprocess
import sys
import threading
from typing import List, Optional

ADDRESS = "127.0.0.1"
# So many lines go into one message at most, and a line of a comment every so many seconds keeps a connection open.
AT_ONCE, ALIVE_SECONDS = 2000, 15
# No line that the program prints has so many bytes; of one that was cut off so much is shown.
MOST_LINE, MOST_CUT = 1 << 23, 1000
POLICY = ("default-src 'none'; script-src 'unsafe-inline'; style-src 'unsafe-inline'; connect-src 'self'; img-src data:; "
          "frame-ancestors 'none'; base-uri 'none'; form-action 'none'")


class Trace:
    """The lines of the trace as they come, for any number of readers."""

    def __init__(self):
        self.lines: List[str] = []
        self.cut = ""
        self.status: Optional[int] = None
        self.has_ended = False
        self.changed = threading.Condition()

    def take(self, source):
        """Takes the lines of a source up to its end, or to a line that no trace has, since it is too long. A last one without
        its line feed was cut off, and is no line."""
        for line in iter(lambda: source.readline(MOST_LINE), b""):
            with self.changed:
                # No line of a trace has a carriage return, which would end a line of a message. The page refuses what comes of it.
                text = line.decode("utf-8", "replace").replace("\r", "\ufffd")
                if text.endswith("\n"):
                    self.lines.append(text[:-1])
                else:
                    self.cut = text[:MOST_CUT]
                self.changed.notify_all()
            if self.cut:
                return

    def end(self, status=None):
        with self.changed:
            self.status, self.has_ended = status, True
            self.changed.notify_all()

    def after(self, count):
        """The lines after so many, when there are some or the end has come, or none after a while."""
        with self.changed:
            self.changed.wait_for(lambda: len(self.lines) > count or self.has_ended, ALIVE_SECONDS)
            return self.lines[count:count + AT_ONCE]


class Server(http.server.ThreadingHTTPServer):
    """The server of one page and its trace, below a random token."""

    daemon_threads = True

    def __init__(self, port: int, html: str, trace: Trace):
        self.html, self.trace, self.token = html, trace, secrets.token_urlsafe(18)
        super().__init__((ADDRESS, port), Handler)


class Handler(http.server.BaseHTTPRequestHandler):
    """Answers requests: the page and its events below the token, and nothing else."""

    def do_GET(self):  # noqa: N802, the name is the library's.
        host = self.headers.get("Host", "")
        if host not in (f"{ADDRESS}:{self.server.server_port}", f"localhost:{self.server.server_port}"):
            self.send_error(403)
        elif self.path == f"/{self.server.token}/":
            self.send_page()
        elif self.path == f"/{self.server.token}/events":
            self.send_events()
        else:
            self.send_error(404)

    def begin(self, sort):
        self.send_response(200)
        for name, value in (("Content-Type", sort), ("Cache-Control", "no-store"), ("Content-Security-Policy", POLICY),
                            ("Referrer-Policy", "no-referrer"), ("X-Content-Type-Options", "nosniff")):
            self.send_header(name, value)

    def send_page(self):
        page = self.server.html.encode("utf-8")
        self.begin("text/html; charset=utf-8")
        self.send_header("Content-Length", str(len(page)))
        self.end_headers()
        self.wfile.write(page)

    def send_events(self):
        """The lines from where the reader is, by its last id, and at the end the status."""
        known = self.headers.get("Last-Event-ID", "0")
        count = min(int(known) if known.isascii() and known.isdigit() else 0, len(self.server.trace.lines))
        self.begin("text/event-stream; charset=utf-8")
        self.end_headers()
        try:
            self.send_lines(count)
        except (BrokenPipeError, ConnectionResetError):
            pass  # The reader has gone.

    def send_lines(self, count):
        trace = self.server.trace
        while True:
            lines = trace.after(count)
            count += len(lines)
            message = f"id: {count}\n" + "".join(f"data: {line}\n" for line in lines) if lines else ": alive\n"
            self.wfile.write(f"{message}\n".encode("utf-8"))
            self.wfile.flush()
            if trace.has_ended and count == len(trace.lines):
                end = json.dumps({"exit": trace.status, "cut": trace.cut})
                self.wfile.write(f"event: end\ndata: {end}\n\n".encode("utf-8"))
                return

    def log_message(self, *words):
        pass  # A line for each request would hide what the command says.


def feed(trace, call):
    """Takes the trace from the call of a command, or from standard input."""
    trace.take(call.stdout if call else sys.stdin.buffer)
    trace.end(call.wait() if call else None)


def serve(html, port, command):
    """Serves until it is interrupted. Answers the status of the command, or 0 where it goes on or where there is none."""
    trace = Trace()
    server = Server(port, html, trace)
    call = subprocess.Popen(command, stdin=subprocess.DEVNULL, stdout=subprocess.PIPE) if command else None
    threading.Thread(target=feed, args=(trace, call), daemon=True).start()
    for number in (signal.SIGINT, signal.SIGTERM):  # A shell may have it ignored in what it starts in the background.
        signal.signal(number, signal.default_int_handler)
    print(f"http://{ADDRESS}:{server.server_port}/{server.token}/", flush=True)
    try:
        server.serve_forever()
    except KeyboardInterrupt:
        pass
    finally:
        server.server_close()
        if call and call.poll() is None:
            call.terminate()
    return trace.status or 0
