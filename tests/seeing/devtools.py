"""Speaks to one headless browser over two pipes, in the DevTools protocol: messages are JSON, each with a zero byte behind it."""
from __future__ import annotations

import base64
import json
import os
import select
import subprocess
import tempfile
from typing import Any

# For how many seconds the browser may say nothing.
LONGEST = 120


class Browser:
    """A browser for as long as the block is; `session` in messages names the page that they are for."""

    def __enter__(self) -> Browser:
        self.folder = tempfile.TemporaryDirectory(ignore_cleanup_errors=True)
        theirs_in, self.out = os.pipe()
        self.into, theirs_out = os.pipe()
        words = ["chromium", "--headless", "--no-sandbox", "--disable-gpu", "--hide-scrollbars", "--remote-debugging-pipe", f"--user-data-dir={self.folder.name}/profile"]
        # The browser reads from descriptor 3 and writes to descriptor 4, which the shell makes of ours.
        shell = f'exec "$@" 3<&{theirs_in} 4>&{theirs_out}'
        self.run = subprocess.Popen(["bash", "-c", shell, "bash", *words], pass_fds=(theirs_in, theirs_out), stdin=subprocess.DEVNULL,
                                    stdout=subprocess.DEVNULL, stderr=subprocess.DEVNULL, env={**os.environ, "HOME": self.folder.name})
        os.close(theirs_in)
        os.close(theirs_out)
        self.number, self.rest = 0, b""
        return self

    def __exit__(self, *_: object) -> None:
        self.run.kill()
        self.run.wait()
        os.close(self.out)
        os.close(self.into)
        self.folder.cleanup()

    def read(self) -> dict[str, Any]:
        while b"\0" not in self.rest:
            assert select.select([self.into], [], [], LONGEST)[0], f"the browser says nothing for {LONGEST} seconds"
            more = os.read(self.into, 1 << 20)
            assert more, "the browser is gone"
            self.rest += more
        found, self.rest = self.rest.split(b"\0", 1)
        return json.loads(found)

    def ask(self, method: str, session: str | None = None, **given: object) -> Any:
        """The answer to a message; what else the browser says before it is passed over."""
        self.number += 1
        asked = {"id": self.number, "method": method, "params": given, **({"sessionId": session} if session else {})}
        os.write(self.out, json.dumps(asked).encode() + b"\0")
        while True:
            found = self.read()
            if found.get("id") == self.number:
                assert "error" not in found, found
                return found["result"]

    def tab(self) -> Tab:
        target = self.ask("Target.createTarget", url="about:blank")["targetId"]
        return Tab(self, self.ask("Target.attachToTarget", targetId=target, flatten=True)["sessionId"])


class Tab:
    def __init__(self, browser: Browser, session: str) -> None:
        self.browser, self.session = browser, session

    def ask(self, method: str, **given: object) -> Any:
        return self.browser.ask(method, self.session, **given)

    def looks(self, width: int, is_dark: bool = False, is_print: bool = False, height: int = 900) -> None:
        """What the window is like from now on."""
        self.ask("Emulation.setDeviceMetricsOverride", width=width, height=height, deviceScaleFactor=1, mobile=False)
        scheme = {"name": "prefers-color-scheme", "value": "dark" if is_dark else "light"}
        self.ask("Emulation.setEmulatedMedia", media="print" if is_print else "", features=[scheme])

    def opens(self, text: str) -> None:
        """Shows a page, whose scripts have run when this ends."""
        path = os.path.join(self.browser.folder.name, "page.html")
        with open(path, "w") as it:
            it.write(text)
        self.ask("Page.enable")
        self.ask("Page.navigate", url=f"file://{path}")
        self.value("new Promise(done => document.readyState === 'complete' ? done() : addEventListener('load', done))")

    def value(self, script: str) -> Any:
        """What a script gives, as JSON has it; it may be awaited."""
        found = self.ask("Runtime.evaluate", expression=script, returnByValue=True, awaitPromise=True)
        assert "exceptionDetails" not in found, found["exceptionDetails"]
        return found["result"].get("value")

    def picture(self, **given: object) -> bytes:
        return base64.b64decode(self.ask("Page.captureScreenshot", format="png", captureBeyondViewport=True, **given)["data"])

    def printed(self) -> bytes:
        return base64.b64decode(self.ask("Page.printToPDF", paperWidth=8.27, paperHeight=11.69)["data"])
