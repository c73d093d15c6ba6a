"""Chromium without a window, driven over its debugging pipe: no server and no package is needed,
and nothing is asked of the network.
"""
import base64, json, os, select, subprocess, tempfile, time

# Of a browser that answers nothing for so long nothing is expected any more.
SECONDS = 120


class Gone(Exception):
    pass


class Chromium:
    def __init__(self, width=1280, height=900):
        self.profile = tempfile.TemporaryDirectory(
            prefix="vurdellow-chromium-", ignore_cleanup_errors=True
        )
        to_read, self.to = os.pipe()
        self.got, from_write = os.pipe()
        # Chromium reads descriptor 3 and writes descriptor 4.
        high = [os.dup2(to_read, 103), os.dup2(from_write, 104)]
        self.process = subprocess.Popen(
            [
                "chromium",
                "--headless=new",
                "--no-sandbox",
                "--disable-gpu",
                "--remote-debugging-pipe",
                f"--user-data-dir={self.profile.name}",
                "--no-first-run",
                "--disable-background-networking",
                "--disable-component-update",
                "--disable-sync",
                "--hide-scrollbars",
                f"--window-size={width},{height}",
                "about:blank",
            ],
            stdin=subprocess.DEVNULL,
            stdout=subprocess.DEVNULL,
            stderr=subprocess.DEVNULL,
            preexec_fn=lambda: (os.dup2(high[0], 3), os.dup2(high[1], 4)),
            pass_fds=(3, 4, *high),
        )
        for it in (to_read, from_write, *high):
            os.close(it)
        self.number, self.rest, self.events = 0, b"", []
        page = next(
            it
            for it in self.ask("Target.getTargets", session=None)["targetInfos"]
            if it["type"] == "page"
        )
        self.session = self.ask(
            "Target.attachToTarget", session=None, targetId=page["targetId"], flatten=True
        )["sessionId"]
        for it in ("Page", "Runtime", "Log", "Network"):
            self.ask(f"{it}.enable")
        self.ask(
            "Network.emulateNetworkConditions",
            offline=True,
            latency=0,
            downloadThroughput=0,
            uploadThroughput=0,
        )
        self.ask("Emulation.setFocusEmulationEnabled", enabled=True)
        self.size(width, height)

    def message(self):
        until = time.monotonic() + SECONDS
        while b"\0" not in self.rest:
            ready, _, _ = select.select([self.got], [], [], max(0, until - time.monotonic()))
            more = os.read(self.got, 1 << 20) if ready else b""
            if not more:
                raise Gone("Chromium answers no more")
            self.rest += more
        one, _, self.rest = self.rest.partition(b"\0")
        return json.loads(one)

    def ask(self, method, session="", **parameters):
        self.number += 1
        request = {"id": self.number, "method": method, "params": parameters}
        if session is not None:
            request["sessionId"] = session or self.session
        data = json.dumps(request).encode() + b"\0"
        while data:
            data = data[os.write(self.to, data) :]
        while True:
            it = self.message()
            if it.get("id") == self.number:
                if "error" in it:
                    raise Gone(f"{method}: {it['error']}")
                return it["result"]
            self.events.append(it)

    def size(self, width, height, is_phone=False):
        self.ask(
            "Emulation.setDeviceMetricsOverride",
            width=width,
            height=height,
            deviceScaleFactor=1,
            mobile=is_phone,
        )
        self.ask("Emulation.setTouchEmulationEnabled", enabled=is_phone)

    def likes(self, **features):
        """What the reader of the page prefers, as `scheme="dark"` or `motion="reduce"`."""
        names = {"scheme": "prefers-color-scheme", "motion": "prefers-reduced-motion"}
        self.ask(
            "Emulation.setEmulatedMedia",
            features=[{"name": names[it], "value": value} for it, value in features.items()],
        )

    def open(self, path):
        self.events = [it for it in self.events if it.get("method") != "Page.loadEventFired"]
        self.ask("Page.navigate", url="file://" + os.path.abspath(path))
        while not any(it.get("method") == "Page.loadEventFired" for it in self.events):
            self.events.append(self.message())

    def value(self, expression):
        it = self.ask(
            "Runtime.evaluate", expression=expression, awaitPromise=True, returnByValue=True
        )
        if "exceptionDetails" in it:
            raise Gone(
                f"{expression[:80]}:"
                f" {it['exceptionDetails'].get('exception', it['exceptionDetails'])}"
            )
        return it["result"].get("value")

    def text(self, selector):
        return self.value(f"document.querySelector({json.dumps(selector)}).innerText")

    def key(self, code, key, is_down, **more):
        self.ask(
            "Input.dispatchKeyEvent",
            type="rawKeyDown" if is_down else "keyUp",
            code=code,
            key=key,
            **more,
        )

    def tab(self, is_back=False):
        for kind in ("rawKeyDown", "keyUp"):
            self.ask(
                "Input.dispatchKeyEvent",
                type=kind,
                code="Tab",
                key="Tab",
                windowsVirtualKeyCode=9,
                modifiers=8 if is_back else 0,
            )

    def enter(self):
        self.ask(
            "Input.dispatchKeyEvent",
            type="keyDown",
            code="Enter",
            key="Enter",
            windowsVirtualKeyCode=13,
            text="\r",
        )
        self.ask(
            "Input.dispatchKeyEvent",
            type="keyUp",
            code="Enter",
            key="Enter",
            windowsVirtualKeyCode=13,
        )

    def middle(self, selector):
        return self.value(
            f"(() => {{ const it = document.querySelector({json.dumps(selector)});"
            " it.scrollIntoView({block: 'center'}); const b = it.getBoundingClientRect(); return"
            " [b.x + b.width / 2, b.y + b.height / 2]; })()"
        )

    def mouse(self, selector, *kinds):
        x, y = self.middle(selector)
        for kind in kinds or ("mousePressed", "mouseReleased"):
            self.ask("Input.dispatchMouseEvent", type=kind, x=x, y=y, button="left", clickCount=1)

    def touch(self, selector):
        x, y = self.middle(selector)
        self.ask("Input.dispatchTouchEvent", type="touchStart", touchPoints=[{"x": x, "y": y}])
        self.ask("Input.dispatchTouchEvent", type="touchEnd", touchPoints=[])

    def picture(self, path, is_whole=False):
        with open(path, "wb") as it:
            it.write(
                base64.b64decode(
                    self.ask(
                        "Page.captureScreenshot", format="png", captureBeyondViewport=is_whole
                    )["data"]
                )
            )

    def errors(self):
        """What went wrong in the page, and each address that it asked for but files."""
        self.value("0")
        found = [
            str(it["params"])[:300]
            for it in self.events
            if it.get("method") in ("Runtime.exceptionThrown", "Log.entryAdded")
        ]
        asked = [
            it["params"]["request"]["url"]
            for it in self.events
            if it.get("method") == "Network.requestWillBeSent"
        ]
        return found + [
            f"it asks for {it}" for it in asked if not it.startswith(("file:", "data:", "about:"))
        ]

    def end(self):
        self.process.terminate()
        try:
            self.process.wait(20)
        except subprocess.TimeoutExpired:
            self.process.kill()
            self.process.wait()
        self.profile.cleanup()
