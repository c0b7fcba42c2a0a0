"""Chromium as a person uses it, by the pipe of its debugger: windows of any width, dark and light, keys, and what a
screen reader is told."""
from __future__ import annotations

import base64
import json
import os
import subprocess
import tempfile
from contextlib import contextmanager
from pathlib import Path

from trials.checked import chromium

# Seconds for an answer.
SECONDS = 120

KEYS = {"Tab": 9, "Enter": 13, "ArrowDown": 40, "ArrowUp": 38}

# What finds texts that differ too little from what is behind them: each with the ratio, which should be 4.5.
FAINT = """(function () {
  function numbers(text) { return text.match(/[\\d.]+/g).map(Number); }
  function light(color) {
    return color.slice(0, 3).map(function (one) {
      one /= 255;
      return one <= 0.03928 ? one / 12.92 : Math.pow((one + 0.055) / 1.055, 2.4);
    }).reduce(function (sum, one, at) { return sum + one * [0.2126, 0.7152, 0.0722][at]; }, 0);
  }
  function behind(one) {
    for (; one; one = one.parentElement) {
      var color = numbers(getComputedStyle(one).backgroundColor);
      if (color.length === 3 || color[3] > 0) { return color; }
    }
    return [255, 255, 255];
  }
  var found = {};
  document.querySelectorAll("body *").forEach(function (one) {
    var has = Array.prototype.some.call(one.childNodes, function (it) { return it.nodeType === 3 && it.data.trim(); });
    if (!has || one.tagName === "SCRIPT" || !one.getClientRects().length) { return; }
    var pair = [light(numbers(getComputedStyle(one).color)), light(behind(one))];
    var ratio = (Math.max.apply(null, pair) + 0.05) / (Math.min.apply(null, pair) + 0.05);
    if (ratio < 4.5) { found[one.tagName + "." + one.className] = ratio; }
  });
  return JSON.stringify(found);
}())"""

# The elements that are wider than the window.
WIDE = """JSON.stringify(Array.prototype.filter.call(document.querySelectorAll("body *"), function (one) {
  var place = one.getBoundingClientRect();
  return one.closest("pre") === null && one.className !== "unseen" && (place.right > innerWidth + 1 || place.left < -1);
}).map(function (one) { return one.tagName + "." + one.className; }).slice(0, 5))"""


class Browser:
    """A browser with one page."""

    def __init__(self, folder: str):
        to_us, from_us = os.pipe(), os.pipe()
        words = [chromium(), "--headless=new", "--no-sandbox", "--disable-gpu", "--hide-scrollbars",
                 "--remote-debugging-pipe", f"--user-data-dir={folder}", "about:blank"]
        # its debugger reads from descriptor 3 and writes to 4
        script = f'exec 3<&{from_us[0]} 4>&{to_us[1]}; exec "$@"'
        self.process = subprocess.Popen(["bash", "-c", script, "bash", *words], stdin=subprocess.DEVNULL,
                                        stdout=subprocess.DEVNULL, stderr=subprocess.DEVNULL,
                                        pass_fds=(from_us[0], to_us[1]))
        os.close(from_us[0])
        os.close(to_us[1])
        self.source, self.sink = open(to_us[0], "rb", buffering=0), open(from_us[1], "wb", buffering=0)
        self.buffer, self.number, self.page = b"", 0, None
        target = next(it for it in self.ask("Target.getTargets")["targetInfos"] if it["type"] == "page")
        self.page = self.ask("Target.attachToTarget", targetId=target["targetId"], flatten=True)["sessionId"]

    def ask(self, method: str, **given):
        """The answer to a command of the debugger."""
        self.number += 1
        told = {"id": self.number, "method": method, "params": given, **({"sessionId": self.page} if self.page else {})}
        self.sink.write(json.dumps(told).encode() + b"\0")
        while True:
            found = self.message()
            if found.get("id") == self.number:
                assert "result" in found, found
                return found["result"]

    def message(self):
        while b"\0" not in self.buffer:
            data = self.source.read(1 << 16)
            if not data:
                raise OSError("Chromium ended")
            self.buffer += data
        found, _, self.buffer = self.buffer.partition(b"\0")
        return json.loads(found)

    def show(self, name: str, width: int = 1280, height: int = 900, scheme: str = "light") -> None:
        """Opens a file in a window."""
        self.ask("Emulation.setDeviceMetricsOverride", width=width, height=height, deviceScaleFactor=1, mobile=False)
        self.ask("Emulation.setEmulatedMedia", features=[{"name": "prefers-color-scheme", "value": scheme}])
        self.ask("Page.navigate", url=Path(name).resolve().as_uri())
        while self.run("document.readyState + location.protocol") != "completefile:":
            pass

    def run(self, code: str):
        """The value of an expression of the page."""
        return self.ask("Runtime.evaluate", expression=code, returnByValue=True)["result"].get("value")

    def type(self, text: str) -> None:
        self.ask("Input.insertText", text=text)

    def press(self, key: str, times: int = 1) -> None:
        for _ in range(times):
            for kind in ("rawKeyDown", "char", "keyUp") if key == "Enter" else ("rawKeyDown", "keyUp"):
                text = {"text": "\r"} if kind == "char" else {}
                self.ask("Input.dispatchKeyEvent", type=kind, key=key, code=key, windowsVirtualKeyCode=KEYS[key],
                         **text)

    def told(self) -> list[tuple[str, str]]:
        """What a screen reader is told of the page: roles and names."""
        nodes = self.ask("Accessibility.getFullAXTree")["nodes"]
        return [(it["role"]["value"], it.get("name", {}).get("value", "")) for it in nodes if not it.get("ignored")]

    def faint(self) -> dict:
        return json.loads(self.run(FAINT))

    def wide(self) -> list:
        return json.loads(self.run(WIDE))

    def picture(self, name: str) -> None:
        """Writes what the window shows as an image."""
        data = self.ask("Page.captureScreenshot", format="png")["data"]
        Path(name).write_bytes(base64.b64decode(data))

    def end(self) -> None:
        self.sink.close()
        self.source.close()
        try:
            self.process.wait(20)
        except subprocess.TimeoutExpired:
            self.process.kill()
            self.process.wait()


@contextmanager
def browser():
    with tempfile.TemporaryDirectory(prefix="sftpv3-browser-", ignore_cleanup_errors=True) as folder:
        made = Browser(folder)
        try:
            yield made
        finally:
            made.end()
