"""The page of `tools/playground.py`, whose buttons are pressed: for playground.py. It is shown by
node, without a window, and in tabs of a browser."""
import json
import os
import signal
import subprocess
import sys
from pathlib import Path
from typing import Any

from gate import TOP, browser
from gate.browser import Tab
from gate.children import Limit
from gate.playground_server import SECONDS, Checks, Server, written

# The seconds in which all of the page is tried in node.
WINDOW_SECONDS = 300


class NodeWindow:
    """The page in node, without a window."""

    kind = "node"

    def __init__(self, server: Server) -> None:
        script = Path(__file__).with_name("playground.js")
        page = TOP / "tools" / "playground.html"
        words = ["node", str(script), str(page), server.address.geturl()]
        self.process = subprocess.Popen(
            words, stdin=subprocess.PIPE, stdout=subprocess.PIPE, text=True)
        self.limit = Limit(self.process, WINDOW_SECONDS)
        self.limit.timer.start()
        self.load()

    def ask(self, *command: Any) -> Any:
        assert self.process.stdin and self.process.stdout
        print(json.dumps(command), file=self.process.stdin, flush=True)
        answer = self.process.stdout.readline()
        if not answer:
            sys.exit(f"playground: {self.limit.fault or f'node has ended at {command}'}")
        return json.loads(answer)

    def load(self) -> None:
        self.ask("load")

    def press(self, name: str) -> None:
        self.ask("press", name)

    def text(self, name: str) -> Any:
        return self.ask("text", name)

    def value(self, name: str) -> Any:
        return self.ask("value", name)

    def set(self, name: str, value: str) -> None:
        self.ask("set", name, value)

    def changed(self) -> Any:
        return self.ask("changed")

    def close(self) -> None:
        assert self.process.stdin
        self.process.stdin.close()
        self.process.wait(SECONDS)
        self.limit.timer.cancel()


class BrowserWindow:
    """The page in a tab of a browser."""

    kind = "a tab"
    # A page that does something has no button to press; one that is not loaded has no notice.
    REST = """new Promise(done => {
        const notice = () => document.getElementById("notice")?.textContent;
        const isBusy = () => !notice() || document.getElementById("load").disabled;
        const wait = () => isBusy() ? setTimeout(wait, 5) : done();
        wait();
    })"""

    def __init__(self, tab: Tab) -> None:
        self.tab = tab
        self.tab.value(self.REST)

    def element(self, name: str, rest: str) -> Any:
        return self.tab.value(f"document.getElementById({json.dumps(name)}){rest}")

    def load(self) -> None:
        self.tab.reload()
        self.tab.value(self.REST)

    def press(self, name: str) -> None:
        self.element(name, ".click()")
        self.tab.value(self.REST)

    def text(self, name: str) -> Any:
        return self.element(name, ".textContent")

    def value(self, name: str) -> Any:
        return self.element(name, ".value")

    def set(self, name: str, value: str) -> None:
        self.element(name, f".value = {json.dumps(value)}")

    def changed(self) -> Any:
        return self.tab.value(
            'Array.from(document.querySelectorAll("#fields .changed"), it => it.textContent)')


Window = NodeWindow | BrowserWindow


class Hand:
    """What presses the buttons of a page, and checks what it says."""

    def __init__(self, checks: Checks, window: Window) -> None:
        self.checks, self.window = checks, window

    def has(self, what: str, found: Any, wanted: Any) -> None:
        self.checks.same(f"the page in {self.window.kind}, {what}", found, wanted)

    def says(self, what: str, wanted: Any) -> None:
        found = self.window.text("notice")
        self.has(what, wanted if found.startswith(wanted) else found, wanted)

    def press(self, names: str, wanted: str, **values: object) -> None:
        """Fills fields in, presses buttons, and checks what the page says after the last."""
        for name, value in values.items():
            self.window.set(name, str(value))
        for name in names.split():
            self.window.press(name)
        self.says(f"after {names}", wanted)

    def checked(self) -> Any:
        """The first and the last line of what a router checked."""
        lines = self.window.text("checks").split("\n")
        return [lines[0], lines[-1]]


def check_tutorial(hand: Hand) -> None:
    """The steps of docs/tutorial.md."""
    window = hand.window
    hand.says("when it is loaded", "topology ok")
    hand.press("next next next", "beacon 1")
    hand.press("next", "segment new")
    ends = {"from": "1-ff00:0:112", "to": "1-ff00:0:110"}
    hand.press("ask", "ask 0 0", acl="- 1-ff00:0:111\n+", **ends)
    walk = "1-ff00:0:112#0,1 1-ff00:0:111#2,1 1-ff00:0:110#1,0"
    hand.press("ask", f"ask 1 1; {walk}", acl="", sequence="0* 1-ff00:0:110")
    hand.press("send", "packet 0")
    hand.has("the place of a packet", window.text("place"), "at 1-ff00:0:112 0")
    hand.has("its kind", window.text("about").split("\n")[1], "kind U")
    hand.press("turn", "link 1")
    hand.has("what a turn changed", window.changed(), ["01at info field 0, hop field 1"])
    for router in ("1-ff00:0:112", "1-ff00:0:111"):
        checked = [f"router 0 of {router} checked:", "link 1"]
        hand.has(f"what {router} checked", hand.checked(), checked)
        hand.press(*(("turn", "link 1") if router.endswith("2") else ("turns", "delivered")))


def check_page_refusals(hand: Hand) -> None:
    """Refusals of a policy, an event, the verifier and routers, on the page of the tutorial."""
    hand.press("back turns", "delivered")
    hand.press("send turn cut turn", "refused 100 LinkDown: The link at the hop's way out",
               link="1-ff00:0:110#1")
    hand.press("mend send alter turn", "refused 94 BadMac: The hop's authenticator", at=34, xor=1)
    hand.press("send tick turn", "refused 93 Expired: The hop is past its expiry.", seconds=21601)
    hand.press("send", "no 79 Expired: A hop of the path is not live.")
    hand.press("ask", "no 65 NoDefault", acl="- 1-ff00:0:111")
    originate = written("originate", ia="1-ff00:0:111", egress=1, beta0=0)
    hand.press("give", "no 40 NotCore", acl="", own=originate)


def check_reload(hand: Hand) -> None:
    """The page of the tutorial, loaded anew."""
    window = hand.window
    before = [window.value("lines"), window.text("log")]
    window.load()
    count = len(before[0].splitlines())
    wanted = f"{count} lines of before the reload were given to a new process."
    hand.has("when it is loaded anew", window.text("notice"), wanted)
    hand.has("its lines and replies", [window.value("lines"), window.text("log")], before)


def check_other_networks(hand: Hand) -> None:
    """The other examples, a topology that is pasted, and one that is refused."""
    for example in ("pair", "fork"):
        hand.press("load plan all ask send turns", "delivered", example=example)
    topology = hand.window.value("lines").splitlines()[0]
    pasted = json.dumps(json.loads(topology), indent=2)
    hand.press("load-pasted", "topology ok", pasted=pasted)
    hand.press("load-pasted", "topology no 11 BadField: A field is missing", pasted='{"ases":3}')
    hand.press("sweep", "Load a network first.")


def check_page(checks: Checks, server: Server, window: Window) -> None:
    """The page itself: its buttons are pressed."""
    hand = Hand(checks, window)
    check_tutorial(hand)
    check_page_refusals(hand)
    for pid in server.children():
        os.kill(pid, signal.SIGKILL)
    hand.press("give", "no 140 BadLine", own="{}")
    check_reload(hand)
    check_other_networks(hand)


def check_tabs(checks: Checks, server: Server, pictures: Path | None) -> None:
    """The page in a browser, with a second tab beside it."""
    shown = browser.Browser()
    try:
        tabs = [shown.tab(server.address.geturl()) for _ in range(2)]
        one, other = (BrowserWindow(tab) for tab in tabs)
        hand = Hand(checks, other)
        hand.press("load plan all ask send turns", "delivered", example="pair")
        lines = other.value("lines")
        tabs[0].show()
        check_page(checks, server, one)
        hand.has("after another tab", other.value("lines"), lines)
        tabs[1].show()
        hand.press("send turns", "delivered")
        if pictures:
            for number, tab in enumerate(tabs):
                tab.show()
                tab.picture(pictures / f"{number}.png")
    finally:
        shown.stop()
