"""An audit service over HTTP, and a client that has the root digest and its format alone."""
import http.server
import json
import threading
import urllib.request

import mst_verifier
from mst_store import Format, open_store


class Service(http.server.BaseHTTPRequestHandler):
    """Answers GET /KEY, in hexadecimal, with the value and a proof, both of the pinned version."""

    def do_GET(self):
        key = bytes.fromhex(self.path[1:])
        value, proof = pinned.get(key), pinned.prove(key)
        told = {"value": None if value is None else value.hex(), "proof": proof.hex()}
        self.send_response(200)
        self.end_headers()
        self.wfile.write(json.dumps(told).encode())

    def log_message(self, *_):
        pass


def ask(port, key):
    """What the service answers: a value or None, and a proof."""
    with urllib.request.urlopen(f"http://127.0.0.1:{port}/{key.hex()}") as answer:
        told = json.load(answer)
    value = told["value"]
    return None if value is None else bytes.fromhex(value), bytes.fromhex(told["proof"])


def judged(root, key, value, proof):
    """Whether the answer is that of the map with this root digest."""
    try:
        shown = mst_verifier.verify(2, root, key, proof)
    except mst_verifier.Refused:
        return "refused"
    return "accepted" if shown == value else "refused"


writer, reader = open_store(rows=100, passes=2, format=Format.TWO)
writer.put(b"apple", b"30")
with reader.pin() as pinned:
    root = pinned.root()
    server = http.server.ThreadingHTTPServer(("127.0.0.1", 0), Service)
    threading.Thread(target=server.serve_forever, daemon=True).start()
    writer.put(b"apple", b"35")
    value, proof = ask(server.server_address[1], b"apple")
    print("the answer:", judged(root, b"apple", value, proof))
    print("a forged one:", judged(root, b"apple", b"31", proof))
with reader.pin() as pinned:
    value, proof = ask(server.server_address[1], b"apple")
    print("a newer one:", judged(root, b"apple", value, proof))
    server.shutdown()
