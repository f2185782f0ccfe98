"""Chromium and Firefox without windows, with the same calls: the scripts, keys and mouse of WebDriver."""
from __future__ import annotations

import functools
import http.server
import json
import shutil
import socket
import subprocess
import tempfile
import threading
import time
from collections.abc import Callable, Iterator
from contextlib import contextmanager
from pathlib import Path
from typing import Any

from counting import skip

# Keys, with their characters in WebDriver.
KEYS = {"Escape": "\ue00c", "Enter": "\ue007", "Home": "\ue011", "End": "\ue010", "Left": "\ue012", "Right": "\ue014"}
KEYS |= {
    "Up": "\ue013",
    "Down": "\ue015",
    "Shift": "\ue008",
    "Control": "\ue009",
    "Tab": "\ue004",
    "Backspace": "\ue003",
}
# Seconds to wait for a condition in the page, or for the browser to start.
PATIENCE = 30
# A script of WebDriver that calls an asynchronous function and reports its value, or its error.
ASYNC = """const done = arguments[arguments.length - 1], given = [...arguments].slice(0, -1);
(async () => {%s})().then(done, error => done({error: `${error}\\n${error.stack}`}));"""


class Files(http.server.SimpleHTTPRequestHandler):
    """A plain web server, which knows only the types of files."""

    extensions_map = {".html": "text/html", ".js": "text/javascript", ".wasm": "application/wasm"}

    def log_message(self, *_: object) -> None:
        ...


class Strict(Files):
    """A server that allows no workers, as some networks and extensions do."""

    def end_headers(self) -> None:
        self.send_header("Content-Security-Policy", "worker-src 'none'")
        super().end_headers()


@contextmanager
def served(folder: Path, kind: type[Files] = Files) -> Iterator[str]:
    """Yields the address of a folder that is served as files."""
    handler = functools.partial(kind, directory=str(folder))
    with http.server.ThreadingHTTPServer(("127.0.0.1", 0), handler) as server:
        threading.Thread(target=server.serve_forever, daemon=True).start()
        yield f"http://127.0.0.1:{server.server_address[1]}"
        server.shutdown()


class Browser:
    """A browser with one window. A subclass sends the commands of WebDriver."""

    def __init__(self, send: Callable[[str, dict[str, Any]], Any]) -> None:
        self.send = send

    def open(self, address: str) -> None:
        self.send("navigate", {"url": address})

    def run(self, code: str, *given: object) -> Any:
        """Runs the body of an asynchronous function, whose arguments are `given`, and returns its value."""
        value = self.send("script", {"script": ASYNC % code, "args": list(given)})
        if isinstance(value, dict) and "error" in value:
            raise AssertionError(value["error"])
        return value

    def value(self, expression: str, *given: object) -> Any:
        return self.run(f"return {expression}", *given)

    def until(self, condition: str, patience: float = PATIENCE) -> None:
        """Waits until a condition is true in the page."""
        end = time.monotonic() + patience
        while not self.value(f"!!({condition})"):
            assert time.monotonic() < end, f"not true within {patience} s: {condition}"
            time.sleep(0.03)

    def text(self, name: str) -> str:
        found: str = self.value("document.getElementById(given[0]).textContent", name)
        return found

    def press(self, *keys: str, held: str = "") -> None:
        """Presses keys one after another, by their names or characters, while the key `held`, if given, is down."""
        values = [KEYS.get(key, key) for key in keys]
        acts = [{"type": kind, "value": value} for value in values for kind in ("keyDown", "keyUp")]
        if held:
            acts = [{"type": "keyDown", "value": KEYS[held]}, *acts, {"type": "keyUp", "value": KEYS[held]}]
        self.send("actions", {"actions": [{"type": "key", "id": "keys", "actions": acts}]})

    def type(self, text: str) -> None:
        self.press(*text)

    def mouse(self, x: float, y: float, *kinds: str) -> None:
        """Moves the mouse to a point of the window, and presses and releases its button as `kinds` say."""
        acts: list[dict[str, Any]] = [{"type": "pointerMove", "duration": 0, "x": round(x), "y": round(y)}]
        acts += [{"type": kind, "button": 0} for kind in kinds]
        source = {"type": "pointer", "id": "mouse", "parameters": {"pointerType": "mouse"}, "actions": acts}
        self.send("actions", {"actions": [source]})

    def click(self, selector: str) -> None:
        """Clicks the middle of an element, which is scrolled into view, once it stays in its place."""
        code = """for (let last = "";;) {
            const found = document.querySelector(given[0]);
            found.scrollIntoView({block: "nearest", behavior: "instant"});
            const {left, top, width, height} = found.getBoundingClientRect(), place = `${left} ${top}`;
            if (place === last) return [left + width / 2, top + height / 2];
            last = place;
            await new Promise(done => setTimeout(done, 200));
          }"""
        x, y = self.run(code, selector)
        self.mouse(x, y, "pointerDown", "pointerUp")

    def resize(self, width: int, height: int) -> None:
        self.send("resize", {"width": width, "height": height})

    def errors(self) -> list[str]:
        """Returns the errors that the console has shown."""
        found: list[str] = self.send("errors", {})
        return found

    def end(self) -> None:
        self.send("end", {})


def chromium() -> Browser:
    """Starts Chromium, by chromedriver."""
    try:
        from selenium import webdriver
        from selenium.webdriver.chrome.service import Service
        from selenium.webdriver.remote.command import Command
    except ImportError:
        skip("Chromium", "there is no selenium", "python3-selenium")
    path = shutil.which("chromedriver")
    if path is None:
        skip("Chromium", "there is no chromedriver", "chromium-driver")
    options: Any = webdriver.ChromeOptions()
    for word in ("--headless=new", "--no-sandbox", "--disable-gpu", "--disable-dev-shm-usage"):
        options.add_argument(word)
    options.set_capability("goog:loggingPrefs", {"browser": "ALL"})
    driver: Any = webdriver.Chrome(service=Service(path), options=options)
    driver.set_script_timeout(120)

    def resize(width: int, height: int) -> None:
        metrics = {"width": width, "height": height, "deviceScaleFactor": 1, "mobile": False}
        driver.execute_cdp_cmd("Emulation.setDeviceMetricsOverride", metrics)

    commands: dict[str, Callable[..., Any]] = {
        "navigate": lambda url: driver.get(url),
        "script": lambda script, args: driver.execute_async_script(script, *args),
        "actions": lambda actions: driver.execute(Command.W3C_ACTIONS, {"actions": actions}),
        "resize": resize,
        "picture": driver.get_screenshot_as_png,
        "errors": lambda: [entry["message"] for entry in driver.get_log("browser") if entry["level"] == "SEVERE"],
        "end": driver.quit,
    }
    browser = Browser(lambda name, parameters: commands[name](**parameters))
    browser.resize(1280, 800)
    return browser


class Marionette:
    """Firefox by its own protocol: messages of JSON, each after its length."""

    def __init__(self) -> None:
        path = shutil.which("firefox-esr")
        if path is None:
            skip("Firefox", "there is no firefox-esr", "firefox-esr")
        self.profile = tempfile.mkdtemp(prefix="firefox-")
        with socket.create_server(("127.0.0.1", 0)) as probe:
            port = probe.getsockname()[1]
        with open(f"{self.profile}/user.js", "w") as file:
            file.write(
                f'user_pref("marionette.port", {port});\nuser_pref("browser.shell.checkDefaultBrowser", false);\n'
            )
        words = [path, "--headless", "--marionette", "--profile", self.profile, "--width=1280", "--height=900"]
        self.process = subprocess.Popen(words, stdout=subprocess.DEVNULL, stderr=subprocess.DEVNULL)
        self.socket = self.connect(port)
        self.number = 0
        self.read()
        self.call("WebDriver:NewSession", {"capabilities": {"alwaysMatch": {}}})
        self.call("WebDriver:SetTimeouts", {"script": 120_000})

    def connect(self, port: int) -> socket.socket:
        end = time.monotonic() + PATIENCE
        while True:
            try:
                return socket.create_connection(("127.0.0.1", port))
            except OSError:
                assert time.monotonic() < end, "Firefox does not start"
                time.sleep(0.1)

    def read(self) -> Any:
        """Returns the next message; its length and a colon come before it."""
        head = b""
        while not head.endswith(b":"):
            head += self.socket.recv(1)
        body, size = b"", int(head[:-1])
        while len(body) < size:
            body += self.socket.recv(size - len(body))
        return json.loads(body)

    def call(self, name: str, parameters: dict[str, Any]) -> Any:
        self.number += 1
        text = json.dumps([0, self.number, name, parameters]).encode()
        self.socket.sendall(b"%d:%s" % (len(text), text))
        _, _, fault, value = self.read()
        assert not fault, f"{name}: {fault}"
        return value.get("value") if isinstance(value, dict) else value

    def resize(self, width: int, height: int) -> None:
        # The window has borders. After the second call the page has the requested size.
        for _ in range(2):
            code = "return [outerWidth - innerWidth, outerHeight - innerHeight]"
            wide, tall = self.call("WebDriver:ExecuteScript", {"script": code, "args": [], "sandbox": None})
            self.call("WebDriver:SetWindowRect", {"width": width + wide, "height": height + tall})

    def end(self) -> None:
        self.process.terminate()
        self.process.wait()
        self.socket.close()
        shutil.rmtree(self.profile, ignore_errors=True)


def firefox() -> Browser:
    """Starts Firefox, by Marionette."""
    fox = Marionette()
    commands: dict[str, Callable[..., Any]] = {
        "navigate": lambda url: fox.call("WebDriver:Navigate", {"url": url}),
        "script": lambda **given: fox.call("WebDriver:ExecuteAsyncScript", {**given, "sandbox": None}),
        "actions": lambda actions: fox.call("WebDriver:PerformActions", {"actions": actions}),
        "resize": fox.resize,
        # Marionette has no command for the errors of the console.
        "errors": lambda: [],
        "end": fox.end,
    }
    browser = Browser(lambda name, given: commands[name](**given))
    browser.resize(1280, 800)
    return browser
