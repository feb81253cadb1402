"""An audit service over HTTP on loopback, and a client that trusts a root digest alone.

The service answers `GET /KEY`, the key in hexadecimal, by a JSON object: `value`, in hexadecimal or
null where the key is absent, and `proof`. The client checks each answer by the verifier in Python.
One that tells its version also says `format`, `root` and `version` there and under `GET /root`, and
serves a page for a browser, which checks by the verifier in JavaScript.
"""
import contextlib
import http.server
import json
import os
import sys
import threading
import urllib.request

here = os.path.dirname(os.path.abspath(__file__))
top = os.path.join(here, "../..")
sys.path.append(os.path.join(top, "verifiers/python"))
import mst_verifier

FORMAT = 1
HEXADECIMAL = frozenset("0123456789abcdef")

# The page and the verifier, each at its path from the address: the page's modules name the verifier
# by its place in the repository, and a browser goes no higher than the address.
PAGE, VERIFIER = "examples/replicas/page/", "verifiers/javascript/"
KINDS = {"html": "text/html; charset=utf-8", "css": "text/css", "mjs": "text/javascript"}
FILES = {
    "": PAGE + "index.html",
    **{it: PAGE + it for it in ("page.css", "page.mjs", "path.mjs", "drawing.mjs")},
    **{VERIFIER + it: VERIFIER + it for it in ("mst_verifier.mjs", "sha256.mjs")},
}
# The page takes nothing from elsewhere, and asks replicas alone.
POLICY = (
    "default-src 'none'; script-src 'self'; style-src 'self'; img-src data:; "
    "connect-src http: https:; base-uri 'none'; form-action 'none'; frame-ancestors 'none'"
)


@contextlib.contextmanager
def serving(answer, about=None):
    """The port of a server that answers each key by what this function makes of it, a value or None
    and a proof. `about` returns what it tells of its version, as JSON has it; without it there is
    no page. The server ends with the context."""

    class Handler(http.server.BaseHTTPRequestHandler):
        def do_GET(self):
            name = self.path[1:].partition("?")[0]
            if about and name in FILES:
                self.send_page(FILES[name])
            elif about and name == "root":
                self.send_told(about())
            elif name and len(name) % 2 == 0 and HEXADECIMAL.issuperset(name):
                self.send_answer(*answer(bytes.fromhex(name)))
            else:
                self.send_error(404)

        def send_page(self, path):
            with open(os.path.join(top, path), "rb") as file:
                kind = KINDS[path.rsplit(".", 1)[-1]]
                self.send(file.read(), kind, ("Content-Security-Policy", POLICY))

        def send_answer(self, value, proof):
            told = {"value": None if value is None else value.hex(), "proof": proof.hex()}
            self.send_told({**told, **(about() if about else {})})

        def send_told(self, told):
            # Any page may read it: it tells no more than the replica tells all.
            allowed = ("Access-Control-Allow-Origin", "*")
            self.send(json.dumps(told).encode(), "application/json", allowed)

        def send(self, body, kind, *headers):
            self.send_response(200)
            for header in (("Content-Type", kind), ("Content-Length", str(len(body))), *headers):
                self.send_header(*header)
            self.end_headers()
            self.wfile.write(body)

        def log_message(self, *_):
            pass

    server = http.server.ThreadingHTTPServer(("127.0.0.1", 0), Handler)
    threading.Thread(target=server.serve_forever, daemon=True).start()
    try:
        yield server.server_address[1]
    finally:
        server.shutdown()
        server.server_close()


def address(port):
    """The address of a service, as a browser takes it."""
    return f"http://127.0.0.1:{port}"


def port_of(address):
    """The port that an address names."""
    return int(address.rpartition(":")[2])


def service(pinned, others=lambda: []):
    """The port of a service that answers from the version that this pass pins, and serves the page.
    `others` returns the addresses of replicas that the page offers to ask."""
    format, root, version = int(pinned.format()), pinned.root().hex(), pinned.version()

    def about():
        return {"format": format, "root": root, "version": version, "others": others()}

    return serving(lambda key: (pinned.get(key), pinned.prove(key)), about)


def fetched(port, name):
    with urllib.request.urlopen(f"{address(port)}/{name}") as answer:
        return json.load(answer)


def ask(port, key):
    """Returns what a service answers: a value or None, and a proof."""
    told = fetched(port, key.hex())
    value = told["value"]
    return None if value is None else bytes.fromhex(value), bytes.fromhex(told["proof"])


def fault(port, root, key):
    """Why the service's answer for the key is not that of the map with this root digest; None if it
    is."""
    value, proof = ask(port, key)
    try:
        shown = mst_verifier.verify(FORMAT, root, key, proof)
    except mst_verifier.Refused as refused:
        return f"the proof is refused: {refused}"
    return None if shown == value else "the proof shows another answer"


def liar(port, forged, about=None):
    """The port of a service that hands answers on, but for some keys, each with a function that
    makes another answer of the true one. `about` is as in `serving`."""
    return serving(lambda key: forged.get(key, lambda *it: it)(*ask(port, key)), about)
