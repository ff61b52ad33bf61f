"""Drives real browsers without a window: Chromium by its DevTools protocol over a pipe, Firefox by Marionette. Nothing
but Python's own library is taken.
"""
import atexit
import base64
import contextlib
import json
import os
import pathlib
import shutil
import socket
import subprocess
import tempfile
import time
from abc import ABC, abstractmethod
from collections.abc import Callable
from typing import Any

# A name of this machine by which no engine takes it for a safe place.
UNSAFE = "weoldrin.test"
# What each script of a test has.
AT = "const at = (id) => document.getElementById(id);"
# So many seconds an answer is waited for.
PATIENCE = 240.0

# Has the page take a drop of files that were put into a field: no driver of Firefox drags files.
DROP = """
const input = document.createElement("input");
input.type = "file";
input.multiple = true;
input.id = "of-the-test";
input.setAttribute("aria-label", "of the test");
document.body.append(input);
"""
DROPPED = """
const input = document.getElementById("of-the-test");
const transfer = new DataTransfer();
for (const file of input.files) transfer.items.add(file);
input.remove();
const target = document.getElementById("drop");
target.dispatchEvent(new DragEvent("dragover", { bubbles: true, cancelable: true, dataTransfer: transfer }));
target.dispatchEvent(new DragEvent("drop", { bubbles: true, cancelable: true, dataTransfer: transfer }));
"""


class BrowserError(Exception):
    """What a browser refuses, or what its script threw."""


class Browser(ABC):
    """A browser with one page."""

    name = ""
    # So many seconds something is waited for.
    patience = PATIENCE
    # Whether a folder can be dropped on the page by this driver.
    drops_folders = False

    def __init__(self, words: list[str], **pipes: Any) -> None:
        self.process = subprocess.Popen(
            words, stdin=subprocess.DEVNULL, stdout=subprocess.DEVNULL, stderr=subprocess.DEVNULL, **pipes
        )

    @abstractmethod
    def open(self, address: str) -> None:
        """Opens a page, and waits until it is loaded."""

    @abstractmethod
    def run(self, script: str) -> Any:
        """What the body of a function gives, or a promise that it gives."""

    @abstractmethod
    def choose(self, selector: str, paths: list[pathlib.Path]) -> None:
        """Puts files into a field."""

    @abstractmethod
    def press(self, key: str) -> None:
        """Presses a key: Tab, Enter, Space, ArrowRight and their like."""

    @abstractmethod
    def resize(self, width: int, height: int) -> None:
        """Has the page be of so many pixels."""

    @abstractmethod
    def darken(self, is_dark: bool) -> None:
        """Has the page be dark or light."""

    @abstractmethod
    def picture(self) -> bytes:
        """A PNG of what is to be seen."""

    def drop(self, paths: list[pathlib.Path]) -> None:
        """Drops files on the page."""
        self.run(DROP)
        self.choose("#of-the-test", paths)
        self.run(DROPPED)

    def wait(self, condition: str) -> None:
        """Waits until an expression is true."""
        end = time.monotonic() + self.patience
        while True:
            if self.run(f"return Boolean({condition})"):
                return
            if time.monotonic() > end:
                shown = self.run("return document.body.innerText")
                raise BrowserError(f"{self.name}: it did not come to {condition}; the page says: {shown[:2000]}")
            time.sleep(0.03)

    def close(self) -> None:
        """Ends the browser."""
        self.process.terminate()
        try:
            self.process.wait(20)
        except subprocess.TimeoutExpired:
            self.process.kill()
            self.process.wait()


KEYS = {
    "Tab": 9,
    "Enter": 13,
    " ": 32,
    "End": 35,
    "Home": 36,
    "ArrowLeft": 37,
    "ArrowRight": 39,
}


class Chromium(Browser):
    """Chromium, by its DevTools protocol."""

    name = "chromium"
    drops_folders = True

    def __init__(self, program: str, profile: str) -> None:
        read, to_browser = os.pipe()
        from_browser, write = os.pipe()
        words = [program, "--headless=new", "--no-sandbox", "--disable-gpu", "--hide-scrollbars", "--disable-lcd-text"]
        words += [f"--host-resolver-rules=MAP {UNSAFE} 127.0.0.1", "--no-first-run"]
        words += ["--remote-debugging-pipe", f"--user-data-dir={profile}", "about:blank"]
        # The browser has its pipes as the numbers 3 and 4.
        super().__init__(["bash", "-c", f'exec "$@" 3<&{read} 4>&{write}', "bash", *words], pass_fds=(read, write))
        os.close(read)
        os.close(write)
        self.to_browser, self.from_browser = os.fdopen(to_browser, "wb"), from_browser
        self.kept = b""
        self.number = 0
        self.session: str | None = None
        self.events: list[dict[str, Any]] = []
        pages = self.ask("Target.getTargets")["targetInfos"]
        page = next(it["targetId"] for it in pages if it["type"] == "page")
        self.session = self.ask("Target.attachToTarget", targetId=page, flatten=True)["sessionId"]
        for part in ("Page", "DOM", "Runtime", "Log"):
            self.ask(f"{part}.enable")
        self.resize(1000, 900)

    def message(self) -> dict[str, Any]:
        """What the browser says next."""
        while b"\0" not in self.kept:
            part = os.read(self.from_browser, 1 << 20)
            if not part:
                raise BrowserError("chromium ended")
            self.kept += part
        said, _, self.kept = self.kept.partition(b"\0")
        found: dict[str, Any] = json.loads(said)
        return found

    def ask(self, method: str, **words: Any) -> dict[str, Any]:
        """Has the browser do something."""
        self.number += 1
        asked = {"id": self.number, "method": method, "params": words}
        if self.session:
            asked["sessionId"] = self.session
        self.to_browser.write(json.dumps(asked).encode() + b"\0")
        self.to_browser.flush()
        while True:
            said = self.message()
            if said.get("id") == self.number:
                break
            self.events.append(said)
        if "error" in said:
            raise BrowserError(f"{method}: {said['error']['message']}")
        found: dict[str, Any] = said["result"]
        return found

    def open(self, address: str) -> None:
        self.events.clear()
        self.ask("Page.navigate", url=address)
        self.wait('document.readyState === "complete" && location.href !== "about:blank"')

    def run(self, script: str) -> Any:
        # A page that is being left has no answer for a moment.
        expression = f"(async () => {{ {AT} {script} }})()"
        for _ in range(100):
            try:
                found = self.ask("Runtime.evaluate", expression=expression, awaitPromise=True, returnByValue=True)
                break
            except BrowserError as error:
                if not any(it in str(error) for it in ("context", "navigated")):
                    raise
                time.sleep(0.05)
        else:
            raise BrowserError("the page had no answer")
        if "exceptionDetails" in found:
            raise BrowserError(json.dumps(found["exceptionDetails"])[:2000])
        return found["result"].get("value")

    def choose(self, selector: str, paths: list[pathlib.Path]) -> None:
        root = self.ask("DOM.getDocument")["root"]["nodeId"]
        node = self.ask("DOM.querySelector", nodeId=root, selector=selector)["nodeId"]
        self.ask("DOM.setFileInputFiles", nodeId=node, files=[str(it) for it in paths])

    def drop(self, paths: list[pathlib.Path]) -> None:
        data = {"items": [], "files": [str(it) for it in paths], "dragOperationsMask": 1}
        for word in ("dragEnter", "dragOver", "drop"):
            self.ask("Input.dispatchDragEvent", type=word, x=40, y=40, data=data)

    def press(self, key: str) -> None:
        of_key = {"key": key, "windowsVirtualKeyCode": KEYS[key]}
        text = {" ": " ", "Enter": "\r"}.get(key)
        self.ask("Input.dispatchKeyEvent", type="keyDown", **of_key, **({"text": text} if text else {}))
        self.ask("Input.dispatchKeyEvent", type="keyUp", **of_key)

    def resize(self, width: int, height: int) -> None:
        words = {"width": width, "height": height, "deviceScaleFactor": 1, "mobile": False}
        self.ask("Emulation.setDeviceMetricsOverride", **words)

    def darken(self, is_dark: bool) -> None:
        feature = {"name": "prefers-color-scheme", "value": "dark" if is_dark else "light"}
        self.ask("Emulation.setEmulatedMedia", features=[feature])

    def picture(self) -> bytes:
        return base64.b64decode(self.ask("Page.captureScreenshot", format="png")["data"])

    def close(self) -> None:
        with contextlib.suppress(OSError, BrowserError):
            self.session = None
            self.ask("Browser.close")
        super().close()
        self.to_browser.close()
        os.close(self.from_browser)


# Numbers of WebDriver's keys.
DRIVER_KEYS = {
    "Tab": "\ue004",
    "Enter": "\ue007",
    " ": " ",
    "End": "\ue010",
    "Home": "\ue011",
    "ArrowLeft": "\ue012",
    "ArrowRight": "\ue014",
}

PREFERENCES = f"""
user_pref("network.dns.localDomains", "{UNSAFE}");
user_pref("marionette.port", 0);
user_pref("datareporting.policy.dataSubmissionEnabled", false);
user_pref("browser.shell.checkDefaultBrowser", false);
user_pref("app.normandy.enabled", false);
user_pref("browser.aboutwelcome.enabled", false);
user_pref("toolkit.telemetry.server", "");
"""


class Firefox(Browser):
    """Firefox, by Marionette."""

    name = "firefox-esr"

    def __init__(self, program: str, profile: str) -> None:
        folder = pathlib.Path(profile)
        (folder / "user.js").write_text(PREFERENCES, encoding="utf-8")
        # Scripts of the browser itself may be run too: they darken the page, and narrow it.
        words = [program, "--headless", "--marionette", "--remote-allow-system-access", "--no-remote"]
        words += ["--profile", profile, "about:blank"]
        super().__init__(words, env=os.environ | {"MOZ_HEADLESS": "1"})
        end = time.monotonic() + PATIENCE
        port = folder / "MarionetteActivePort"
        while not (port.is_file() and port.read_text(encoding="utf-8").strip()):
            if time.monotonic() > end or self.process.poll() is not None:
                raise BrowserError("firefox did not begin")
            time.sleep(0.05)
        self.line = socket.create_connection(("127.0.0.1", int(port.read_text(encoding="utf-8"))), PATIENCE)
        self.kept = b""
        self.number = 0
        self.message()
        self.ask("WebDriver:NewSession", capabilities={"alwaysMatch": {"acceptInsecureCerts": False}})
        # Marionette has a page that is opened as a file load other files, which no user's browser does.
        self.run_as_browser('Services.prefs.setBoolPref("security.fileuri.strict_origin_policy", true)')
        self.resize(1000, 900)

    def message(self) -> Any:
        """What the browser says next: its length, a colon, and JSON."""
        while True:
            head, colon, rest = self.kept.partition(b":")
            if colon and len(rest) >= int(head):
                self.kept = rest[int(head):]
                return json.loads(rest[: int(head)])
            part = self.line.recv(1 << 20)
            if not part:
                raise BrowserError("firefox ended")
            self.kept += part

    def ask(self, command: str, **words: Any) -> Any:
        """Has the browser do something."""
        self.number += 1
        asked = json.dumps([0, self.number, command, words]).encode()
        self.line.sendall(str(len(asked)).encode() + b":" + asked)
        while True:
            said = self.message()
            if said[0] == 1 and said[1] == self.number:
                break
        if said[2]:
            raise BrowserError(f"{command}: {said[2]['error']}: {said[2]['message']}")
        return said[3]

    def open(self, address: str) -> None:
        self.ask("WebDriver:Navigate", url=address)

    def run(self, script: str) -> Any:
        words = {"script": f"return (async () => {{ {AT} {script} }})()", "args": [], "sandbox": None}
        return self.ask("WebDriver:ExecuteScript", **words)["value"]

    def element(self, selector: str) -> str:
        """The name of an element."""
        found = self.ask("WebDriver:FindElement", using="css selector", value=selector)["value"]
        name: str = next(iter(found.values()))
        return name

    def choose(self, selector: str, paths: list[pathlib.Path]) -> None:
        self.ask("WebDriver:ElementSendKeys", id=self.element(selector), text="\n".join(map(str, paths)))

    def press(self, key: str) -> None:
        value = DRIVER_KEYS[key]
        both = [{"type": "keyDown", "value": value}, {"type": "keyUp", "value": value}]
        self.ask("WebDriver:PerformActions", actions=[{"type": "key", "id": "keys", "actions": both}])

    def run_as_browser(self, script: str) -> None:
        """Runs a script of the browser's own window."""
        self.ask("Marionette:SetContext", value="chrome")
        try:
            self.ask("WebDriver:ExecuteScript", script=script, args=[], sandbox=None)
        finally:
            self.ask("Marionette:SetContext", value="content")

    def resize(self, width: int, height: int) -> None:
        # No window is as narrow as a page can be: what is made narrow is the page's place in it.
        self.ask("WebDriver:SetWindowRect", width=1200, height=1100)
        size = f"min-width: 0; max-width: {width}px; min-height: 0; max-height: {height}px"
        self.run_as_browser(f'gBrowser.selectedBrowser.style.cssText = "{size}"')
        self.wait(f"innerWidth === {width}")

    def darken(self, is_dark: bool) -> None:
        name = "layout.css.prefers-color-scheme.content-override"
        self.run_as_browser(f'Services.prefs.setIntPref("{name}", {0 if is_dark else 1})')

    def picture(self) -> bytes:
        return base64.b64decode(self.ask("WebDriver:TakeScreenshot", full=False)["value"])

    def close(self) -> None:
        with contextlib.suppress(OSError, BrowserError):
            self.ask("Marionette:Quit", flags=["eForceQuit"])
        self.line.close()
        super().close()


BROWSERS: dict[str, Callable[[str, str], Browser]] = {"chromium": Chromium, "firefox-esr": Firefox}


def is_there(name: str) -> bool:
    """Whether this machine has a browser."""
    return shutil.which(name) is not None


# The browsers that were begun, each with its profile's folder.
running: dict[str, tuple[Browser, tempfile.TemporaryDirectory[str]]] = {}


def begun(name: str) -> Browser:
    """The browser of a name. It is begun once: that takes longer than many tests."""
    program = shutil.which(name)
    if program is None:
        raise BrowserError(f"{name} is not installed")
    if not running:
        atexit.register(end_all)
    if name not in running:
        profile = tempfile.TemporaryDirectory(prefix="weoldrin-", ignore_cleanup_errors=True)
        running[name] = (BROWSERS[name](program, profile.name), profile)
    return running[name][0]


def end_all() -> None:
    """Ends all browsers that were begun."""
    while running:
        browser, profile = running.popitem()[1]
        browser.close()
        profile.cleanup()
