"""Runs a browser without a window: Chromium, controlled by its DevTools protocol over two descriptors (--remote-debugging-pipe)."""
import base64
import collections
import contextlib
import json
import os
import socket
import subprocess
import time
from collections.abc import Callable, Mapping
from pathlib import Path
from typing import Any

from office_kit.client import AHEAD
from office_kit.common import check, fail

Event = dict[str, Any]
# The answers that a page gets in place of the server's: a status and a body, or nothing.
Answers = Mapping[str, tuple[int, bytes] | None]

# Seconds until an answer must come, or a condition be true; AHEAD adds to them, as to deadlines.
PATIENCE = max(60, 15 * AHEAD)
# Keys by their codes: each one's number for Windows, its name, and the text that it types.
KEYS = {"Tab": (9, "Tab", ""), "Enter": (13, "Enter", "\r"), "Space": (32, " ", " ")}
DOMAINS = ("Page", "Runtime", "Log", "Network", "Audits")
# Without a sandbox, since root can't have one in a container. It shows only the pages of this repository.
WORDS = ["--headless=new", "--no-sandbox", "--disable-gpu", "--disable-dev-shm-usage", "--hide-scrollbars", "--no-first-run", "--disable-extensions",
         "--disable-background-networking", "--disable-component-update", "--ignore-certificate-errors", "--remote-debugging-pipe"]


class Browser:
    """Chromium with a profile of its own in a folder. It ends after its `with`. It takes a picture only if one is asked for, since each costs as much as a
    view."""

    def __init__(self, program: str, folder: str, pictures: bool = False) -> None:
        self.pictures = pictures
        self.stream, end = socket.socketpair()
        self.stream.settimeout(PATIENCE)
        self.count, self.rest = 0, b""
        # By session the events, and the requests that wait to be answered.
        self.events: dict[str | None, list[Event]] = collections.defaultdict(list)
        self.paused: dict[str | None, list[Event]] = collections.defaultdict(list)

        environment = {**os.environ, "HOME": folder, "DBUS_SESSION_BUS_ADDRESS": "disabled:"}
        # It reads at 3 and writes at 4.
        words = ["sh", "-c", 'exec "$0" "$@" 3<&0 4>&1 </dev/null >/dev/null', program, *WORDS, f"--user-data-dir={os.path.join(folder, 'profile')}"]
        with end:
            self.process = subprocess.Popen(words, env=environment, stdin=end.fileno(), stdout=end.fileno(), stderr=subprocess.DEVNULL)

    def __enter__(self) -> "Browser":
        return self

    def __exit__(self, *_: object) -> None:
        try:
            self.ask("Browser.close")
            self.process.wait(PATIENCE)
        except (OSError, SystemExit, subprocess.TimeoutExpired):
            self.process.kill()
            self.process.wait()
        self.stream.close()

    def ask(self, method: str, session: str | None = None, **parameters: Any) -> Any:
        """The answer to a command. Events that come before it are kept."""
        self.count += 1
        where = {"sessionId": session} if session else {}
        self.stream.sendall(json.dumps({"id": self.count, "method": method, "params": parameters, **where}).encode() + b"\0")
        number = self.count
        while (message := self.receive()).get("id") != number:
            # (An answer that came too late for its command is dropped.)
            if "method" in message:
                kind = self.paused if message["method"] == "Fetch.requestPaused" else self.events
                kind[message.get("sessionId")].append(message)
        if "error" in message:
            told = f"chromium: {method}: {message['error']['message']}"
            if "navigated" in told:
                raise Navigated(told)
            fail(told)
        return message["result"]

    def receive(self) -> Event:
        while b"\0" not in self.rest:
            self.rest += self.stream.recv(1 << 20) or fail("chromium has ended")
        message, _, self.rest = self.rest.partition(b"\0")
        told: Event = json.loads(message)
        if told.get("method") == "Page.javascriptDialogOpening":
            # A page that asks before it is left may be left.
            self.count += 1
            accepts = {"id": self.count, "method": "Page.handleJavaScriptDialog", "params": {"accept": True}, "sessionId": told["sessionId"]}
            self.stream.sendall(json.dumps(accepts).encode() + b"\0")
        return told


class Navigated(SystemExit):
    """The page was left while it was asked."""


class Page:
    """A page in a context of its own: nothing is kept from another one. For the paths of `answers` it answers in place of the server: a status and a body, or
    None for no answer."""

    def __init__(self, browser: Browser, width: int, height: int = 800) -> None:
        self.browser = browser
        self.answers: Answers = {}
        self.session: str | None = None
        self.context = self.ask("Target.createBrowserContext")["browserContextId"]
        target = self.ask("Target.createTarget", url="about:blank", browserContextId=self.context)["targetId"]
        self.session = self.ask("Target.attachToTarget", targetId=target, flatten=True)["sessionId"]
        for domain in DOMAINS:
            self.ask(f"{domain}.enable")
        self.shape(width, height)

    def ask(self, method: str, **parameters: Any) -> Any:
        return self.browser.ask(method, self.session, **parameters)

    def shape(self, width: int, height: int = 800, dark: bool = False) -> None:
        """A window of this size, light or dark; a narrow one is a phone's."""
        self.ask("Emulation.setDeviceMetricsOverride", width=width, height=height, deviceScaleFactor=1, mobile=width < 600)
        self.ask("Emulation.setEmulatedMedia", features=[{"name": "prefers-color-scheme", "value": "dark" if dark else "light"}])

    def events(self, *names: str) -> list[Event]:
        return [event["params"] for event in self.browser.events[self.session] if event["method"] in names]

    def run(self, script: str) -> Any:
        """The value of an expression of the page, awaited if it is a promise."""
        answer = self.ask("Runtime.evaluate", expression=script, returnByValue=True, awaitPromise=True)
        if "exceptionDetails" in answer:
            fail(f"the page: {script}: {answer['exceptionDetails']}")
        return answer["result"].get("value")

    def gives(self, script: str, wanted: Any = True) -> None:
        told = self.run(script)
        check(f"the page: {script}: gives {told!r}, and not {wanted!r}", told == wanted)

    def wait(self, script: str) -> None:
        """Waits until an expression of the page holds."""
        self.expect(script, lambda: self.run(f"Boolean({script})"))

    def expect(self, what: str, holds: Callable[[], Any]) -> None:
        """Waits until something holds, also while another page comes, and answers the page's requests meanwhile."""
        end = time.monotonic() + PATIENCE
        while time.monotonic() < end:
            with contextlib.suppress(Navigated):
                if holds():
                    return
                # Events come with the answer to a command.
                self.run("0")
            self.answer()
            time.sleep(0.02)
        fail(f"the page: {what}: doesn't come to hold; it shows {self.text()!r}")

    def answer(self) -> None:
        """Answers a request of the page, if `answers` has its path."""
        for event in self.browser.paused.pop(self.session, []):
            request = event["params"]["requestId"]
            path = "/" + event["params"]["request"]["url"].split("/", 3)[3]
            if path not in self.answers:
                self.ask("Fetch.continueRequest", requestId=request)
            elif not (answer := self.answers[path]):
                self.ask("Fetch.failRequest", requestId=request, errorReason="ConnectionClosed")
            else:
                status, body = answer
                media = [{"name": "Content-Type", "value": "text/javascript"}] if path.endswith(".js") else []
                self.ask("Fetch.fulfillRequest", requestId=request, responseCode=status, responseHeaders=media, body=base64.b64encode(body).decode())

    def answer_for(self, answers: Answers, kind: str = "Fetch") -> None:
        """Sets the answers to requests of scripts from now on. For another kind of request, only the paths of `answers` are held, and no others wait. If there
        are none, the server answers again, also what was held until now."""
        self.answers = answers
        if answers:
            places = ["*"] if kind == "Fetch" else [f"*{path}" for path in answers]
            self.ask("Fetch.enable", patterns=[{"urlPattern": place, "resourceType": kind} for place in places])
        else:
            self.ask("Fetch.disable")
            self.browser.paused.pop(self.session, None)

    def go(self, address: str) -> None:
        """Loads a page from the beginning, until it has drawn the view of its address."""
        self.ask("Page.navigate", url="about:blank")
        self.ask("Page.navigate", url=address)
        self.drawn()

    def drawn(self, script: str = "true") -> None:
        """Waits until the page has drawn a view, and an expression holds."""
        self.wait(f"document.querySelector('main')?.getAttribute('aria-busy') === 'false' && ({script})")

    def fill(self, name: str, text: str) -> None:
        """Types into the field of this name, in place of its old text."""
        self.run(f"(() => {{ const at = document.getElementById({json.dumps(name)}); at.focus(); at.select(); }})()")
        self.type(text)

    def text(self) -> str:
        """The text that is seen of the content, in lines without space around them."""
        lines = (self.run("(document.querySelector('main') ?? document.body).innerText") or "").split("\n")
        return "".join(f"{' '.join(line.split())}\n" for line in lines if line.strip())

    def keep_in(self, folder: str) -> None:
        self.browser.ask("Browser.setDownloadBehavior", behavior="allow", browserContextId=self.context, downloadPath=folder)

    def saved(self, path: str) -> bytes:
        self.expect(f"{path} is saved", lambda: os.path.exists(path) and os.path.getsize(path) > 0)
        return Path(path).read_bytes()

    def choose(self, name: str, path: str) -> None:
        self.wait(f"document.getElementById({json.dumps(name)})")
        field = self.ask("Runtime.evaluate", expression=f"document.getElementById({json.dumps(name)})")["result"]
        self.ask("DOM.setFileInputFiles", files=[path], objectId=field["objectId"])

    def press(self, code: str) -> None:
        number, name, text = KEYS[code]
        self.ask("Input.dispatchKeyEvent", type="keyDown", key=name, code=code, windowsVirtualKeyCode=number, **({"text": text} if text else {}))
        self.ask("Input.dispatchKeyEvent", type="keyUp", key=name, code=code, windowsVirtualKeyCode=number)

    def type(self, text: str) -> None:
        self.ask("Input.insertText", text=text)

    def tree(self) -> list[tuple[str, str, dict[str, Any]]]:
        """The things that a screen reader reads, in its order: each one's role, name and other properties."""
        nodes = {node["nodeId"]: node for node in self.ask("Accessibility.getFullAXTree")["nodes"]}
        told, left = [], [name for name, node in nodes.items() if "parentId" not in node]
        while left:
            node = nodes[left.pop()]
            left += [child for child in reversed(node.get("childIds", [])) if child in nodes]
            if not node.get("ignored"):
                more = {it["name"]: it["value"].get("value") for it in node.get("properties", [])}
                told.append((node["role"]["value"], node.get("name", {}).get("value", ""), more))
        return told

    def picture(self, path: str) -> None:
        """A picture of the whole page, also of parts that need scrolling. It makes none unless pictures are asked for."""
        if self.browser.pictures:
            size = self.ask("Page.getLayoutMetrics")["cssContentSize"]
            clip = {"x": 0, "y": 0, "width": size["width"], "height": size["height"], "scale": 1}
            Path(path).write_bytes(self.shot(clip, optimizeForSpeed=True))

    def shot(self, clip: Mapping[str, float], **how: bool) -> bytes:
        """A part of the page as a PNG."""
        return base64.b64decode(self.ask("Page.captureScreenshot", format="png", captureBeyondViewport=True, clip=clip, **how)["data"])
