"""What the page of an audit service shows in a headless Chromium that is asked with the keyboard
alone: answers that are the map's, and forged ones, each refused at its place in the picture.
"""
import os

import audit
import browser
import mst_verifier
from engine import expect

VECTORS = os.path.join(audit.top, "vectors/proofs.tsv")
SHOWN = """(() => {
  const all = (selector) => [...document.querySelectorAll(selector)];
  const title = (it) => it.closest(".box").querySelector("h3").textContent.replace(/ of .*/, "");
  const verdict = document.getElementById("verdict");
  return {
    verdict: verdict.dataset.verdict,
    test: verdict.dataset.test,
    text: verdict.textContent,
    told: document.getElementById("told").textContent,
    boxes: all("#path .box").map(title),
    fits: all("#path .fits").length,
    arrows: all("#path svg.link").length,
    faults: all("#path .fault").map((it) => [it.dataset.test, title(it)]),
  };
})()"""
IS_DONE = "!['', 'asking', undefined].includes(document.getElementById('verdict').dataset.verdict)"
IS_READY = "document.querySelectorAll('#replicas option').length > 0"
FOCUS = "[document.activeElement.id, document.activeElement.getAttribute('aria-invalid')]"
CONTROLS = ("textbox", "combobox", "radio", "button", "DisclosureTriangle")


class Asker:
    """A person at the page that a service serves."""

    def __init__(self, page, port):
        self.page, self.port = page, port

    def send(self, key, root="", format=None, replica=None, trusted=None, digits=False):
        """Fills the form, field after field, and sends it. The root digest is the person's own,
        `root` in hexadecimal, or what the service at the port `trusted` tells. What is not given
        stays as the page offers it."""
        page = self.page
        page.call("Page.navigate", url=audit.address(self.port) + "/")
        page.wait(IS_READY)
        page.press("Tab")
        page.write(key)
        page.press("Tab", *(["Down"] if digits else []), "Tab")
        if replica:
            page.write(audit.address(replica))
        page.press("Tab", *(["Down"] if trusted else []), "Tab")
        page.write(audit.address(trusted) if trusted else root)
        if not trusted:
            page.press("Tab", *([str(format)] if format else []))
        page.press("Tab", "Enter")

    def ask(self, *given, **named):
        """As `send`. Returns what is shown then."""
        self.send(*given, **named)
        self.page.wait(IS_DONE)
        return self.page.value(SHOWN)


def is_checked(shown, verdict, texts, *words):
    """Whether an answer is shown as that of the map, with this many texts, each with its digest, and
    with these words."""
    boxes = ["Root digest that you trust", *(f"Node {it + 1}" for it in range(texts)), "Answer"]
    is_whole = shown["boxes"] == boxes and shown["arrows"] == texts + 1
    says = all(it in shown["text"] for it in words)
    is_plain = shown["faults"] == [] and shown["test"] == ""
    return shown["verdict"] == verdict and shown["fits"] == texts and is_whole and says and is_plain


def is_refused(shown, test, box):
    """Whether an answer is shown as refused by a test, with the fault in this box alone."""
    is_said = shown["verdict"] == "refused" and shown["test"] == test
    return is_said and shown["faults"] == [[test, box]]


def texts_in(proof):
    """The texts of a proof of format 1."""
    return mst_verifier.read_frame(1, proof)[0]


def framed(texts):
    """The proof of format 1 that these texts make."""
    parts = (len(text).to_bytes(4, "big") + text for text in texts)
    return bytes([1, len(texts)]) + b"".join(parts)


def with_value(proof, at, key=None):
    """The proof, but for a value in one of its texts: that of the key, or of the text's first."""
    texts = texts_in(proof)
    _, keys, values, _ = mst_verifier.read_node(1, texts[at])
    value = values[keys.index(key) if key else 0]
    texts[at] = texts[at].replace(value, value[:-1] + b"!")
    return framed(texts)


def forgeries(key):
    """Names of forgeries with what each makes of a true answer, and the test and the box in which
    it is refused. The true proof has three texts, the last of which holds the key."""
    return {
        "a forged value with a true proof": (lambda value, it: (value + b"!", it), "", "Answer"),
        "a key that is hidden": (lambda value, it: (None, it), "", "Answer"),
        "a forged value in the proof": (
            lambda value, it: (value[:-1] + b"!", with_value(it, 2, key)), "P5", "Node 3"),
        "a forged node at the top": (lambda value, it: (value, with_value(it, 0)), "P5", "Node 1"),
        "a forged node on the way": (lambda value, it: (value, with_value(it, 1)), "P5", "Node 2"),
        "a node left out": (
            lambda value, it: (value, framed(texts_in(it)[:2])), "P8", "No further node"),
        "a node too many": (
            lambda value, it: (value, framed([*texts_in(it), texts_in(it)[0]])), "P9", "Node 4"),
        "no node at all": (lambda value, it: (None, framed([])), "P5", "No further node"),
    }


def expect_forgeries(page, port, key, root):
    """Each forgery is refused at its place, by a service that lies of this key alone."""
    for name, (forge, test, box) in forgeries(key).items():
        with audit.liar(port, {key: forge}, lambda: audit.fetched(port, "root")) as lying:
            shown = Asker(page, lying).ask(key.decode(), root.hex())
        by = f" by {test}" if test else ""
        expect(f"page: {name} is refused{by} at {box}", is_refused(shown, test, box))


def expect_tests(page):
    """A vector of each test is refused by it, in one box."""
    with open(VECTORS, encoding="ascii") as file:
        lines = [line.rstrip("\n").split("\t") for line in file]
    for test in (f"P{it}" for it in range(1, 11)):
        format, root, key, proof = next(it for it in lines if it[4] == test and it[3] != "-")[:4]
        about = {"format": int(format), "root": root, "version": 0}
        with audit.serving(lambda _: (None, bytes.fromhex(proof)), lambda: about) as port:
            shown = Asker(page, port).ask(key, root, digits=True)
        box = shown["faults"][0][1] if shown["faults"] else None
        expect(f"page: {test} is shown at {box}", is_refused(shown, test, box))


def expect_answers(asker, port, other, model, root, absent):
    """True answers are checked, by a root digest of the person's own and by that of another
    replica, and refused by another one."""
    for key in list(model)[:3]:
        texts, words = audit.ask(port, key)[1][1], [key.decode(), model[key].decode()]
        shown = asker.ask(key.decode(), root.hex())
        expect(f"page: {words[0]} has its value", is_checked(shown, "present", texts, *words))
    texts = audit.ask(port, absent)[1][1]
    shown = asker.ask(absent.hex(), root.hex(), digits=True)
    expect("page: an absent key", is_checked(shown, "absent", texts, absent.decode()))
    shown = asker.ask(absent.decode(), trusted=other)
    expect("page: by the root digest of another replica",
           is_checked(shown, "absent", texts) and audit.address(other) in shown["told"])
    shown = asker.ask(absent.decode(), root[::-1].hex())
    expect("page: another root digest refuses it", is_refused(shown, "P5", "Node 1"))
    shown = asker.ask(absent.decode(), root.hex(), format=2)
    expect("page: another format too", is_refused(shown, "P1", "The frame"))


def expect_format_two(page, pinned):
    """Answers from a version in format 2, which has the value of `key` alone."""
    root = pinned.root().hex()
    with audit.service(pinned) as port:
        asker = Asker(page, port)
        shown = asker.ask("key", root)
        expect("page: a value in format 2", is_checked(shown, "present", 1, "“value”"))
        shown = asker.ask("no key", root)
        expect("page: an absent key in format 2", is_checked(shown, "absent", 1, "“no key”"))
        forged = {b"key": lambda _, it: (b"other", it.replace(b"value", b"other"))}
        with audit.liar(port, forged, lambda: audit.fetched(port, "root")) as lying:
            shown = Asker(page, lying).ask("key", root)
        expect("page: a forged value in format 2", is_refused(shown, "P10", "Answer"))


def expect_fields(asker, root):
    """What can be no question is said next to its field, which gets the focus."""
    questions = {"key": ("k" * 33, root.hex()), "root": ("key", root.hex()[1:])}
    for field, question in questions.items():
        asker.send(*question)
        asker.page.wait("document.querySelectorAll('[aria-invalid=true]').length > 0")
        is_there = asker.page.value(FOCUS) == [field, "true"]
        says = asker.page.value(f"document.getElementById('{field}-fault').textContent") != ""
        expect(f"page: a wrong {field} is said at its field", is_there and says)


def expect_quiet(page):
    """The page has asked loopback alone, has no faults of its own, and names its controls."""
    expect("page: it asks replicas alone",
           all(it.startswith("http://127.0.0.1:") for it in page.asked))
    expect("page: its console is empty", page.said == [])
    nodes = page.call("Accessibility.getFullAXTree")["nodes"]
    controls = [it for it in nodes if it.get("role", {}).get("value") in CONTROLS]
    named = [it for it in controls if it.get("name", {}).get("value")]
    expect(f"page: its {len(controls)} controls have names", controls and named == controls)


def open_by_keyboard(page):
    """Whether the entries of the first node come and go by the keyboard."""
    is_open = "document.querySelector('#path details').open"
    page.press("Tab", "Space")
    page.wait(is_open)
    page.press("Space")
    page.wait("!" + is_open)
    return True


def draw(page, folder, name):
    """Writes pictures of the page as it is, if there is a folder for them."""
    if folder:
        for scheme in ("light", "dark"):
            page.picture(os.path.join(folder, f"{name}-{scheme}.png"), scheme)
        page.picture(os.path.join(folder, f"{name}-narrow.png"), width=400)


def check_in(page, port, other, model, root, two, folder):
    """As `check`, in this browser."""
    absent = b"key 9999"
    key = next(it for it in sorted(model)[len(model) // 3 :] if audit.ask(port, it)[1][1] == 3)
    asker = Asker(page, port)
    expect_answers(asker, port, other, model, root, absent)
    asker.ask(key.decode(), root.hex())
    draw(page, folder, "present")
    expect("page: all entries of a node, by the keyboard", open_by_keyboard(page))
    expect_quiet(page)
    expect_forgeries(page, port, key, root)
    expect_tests(page)
    expect_format_two(page, two)
    expect_fields(asker, root)
    expect_quiet(page)
    shown = asker.ask("key", root.hex(), replica=1)
    expect("page: a replica that is away", shown["verdict"] == "unanswered")
    forge = forgeries(key)["a forged node on the way"][0]
    with audit.liar(port, {key: forge}, lambda: audit.fetched(port, "root")) as lying:
        Asker(page, lying).ask(key.decode(), root.hex())
        draw(page, folder, "refused")


def check(port, other, model, root, two, folder=None):
    """Checks the page of the service at this port, which answers from the version with these pairs
    and this root digest; so does that at the port `other`. `two` is pinned, in format 2. Pictures
    go to a folder, if there is one."""
    if not browser.program():
        print("left out: the page: there is no chromium (Debian: apt install chromium)")
        return
    try:
        with browser.opened() as page:
            check_in(page, port, other, model, root, two, folder)
    except browser.NotStarted:
        print("left out: the page: chromium is there, and does not start")
