"""A proxy before a server of HTTP that loses some requests and some answers, delays some, and sends some twice."""

import collections
import http.client
import http.server
import threading
import time

# What becomes of a request: how many of a hundred.
FATES = {"requests lost": 5, "answers lost": 10, "requests late": 5, "requests twice": 5}
# A late one comes after so many seconds: the client has given up by then, and mostly asked again.
LATE = (0.6, 5.0)
# A stream of answers is cut after so many seconds at most.
STREAM = 3.0


class Proxy(http.server.ThreadingHTTPServer):
    """A proxy before an endpoint; `counts` has what it did, by kind."""

    daemon_threads = True

    def __init__(self, endpoint, chance):
        super().__init__(("127.0.0.1", 0), Carrier)
        self.target, self.chance, self.counts = endpoint, chance, collections.Counter()
        self.endpoint = f"127.0.0.1:{self.server_address[1]}"
        threading.Thread(target=self.serve_forever, daemon=True).start()

    def handle_error(self, request, client_address):
        """A client that has given up is no error."""

    def draw(self):
        number, fate = self.chance.randrange(100), ""
        for kind, share in FATES.items():
            fate, number = kind if not fate and 0 <= number < share else fate, number - share
        self.counts[fate] += 1
        return fate


class Carrier(http.server.BaseHTTPRequestHandler):
    """A request on its way."""

    def do_POST(self):
        body, fate = self.rfile.read(int(self.headers["Content-Length"])), self.server.draw()
        if self.path.endswith("/watch"):
            return self.stream(self.forward(body))
        if fate == "requests lost":
            return None
        if fate == "requests late":
            time.sleep(self.server.chance.uniform(*LATE))
        if fate == "requests twice":
            self.forward(body).read()
        response = self.forward(body)
        answer = response.read()
        if fate != "answers lost":
            self.send_response(response.status)
            self.send_header("Content-Length", str(len(answer)))
            self.end_headers()
            self.wfile.write(answer)
        return None

    def forward(self, body):
        connection = http.client.HTTPConnection(self.server.target, timeout=30)
        connection.request("POST", self.path, body, {"Content-Type": "application/json", "Connection": "close"})
        return connection.getresponse()

    def stream(self, response):
        """Carries lines as they come, until the stream is cut."""
        end = time.monotonic() + self.server.chance.uniform(0, STREAM)
        self.send_response(response.status)
        self.end_headers()
        while time.monotonic() < end and (line := response.readline()):
            self.wfile.write(line)
            self.wfile.flush()
        self.server.counts["streams cut"] += 1

    def log_message(self, *_):
        """Says nothing."""
