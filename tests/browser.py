"""A browser that page.py drives: chromium without a window, by its debugging protocol over a pipe.

It uses only Python's standard library."""
import fcntl
import json
import os
import queue
import shutil
import subprocess
import tempfile
import threading
import time

KEYS = {"Enter": 13, "Tab": 9, "Escape": 27, "ArrowLeft": 37, "ArrowRight": 39}


def found():
    """Returns the browser's program, or None."""
    names = [os.environ.get("CHROMIUM", ""), "chromium", "chromium-browser", "google-chrome"]
    return next((path for path in map(shutil.which, filter(None, names)) if path), None)


class Browser:
    """A browser with a fresh profile, in a zone."""

    def __init__(self, program, zone):
        self.room = tempfile.mkdtemp()
        here, theirs = os.pipe(), os.pipe()
        words = [
            program, "--headless=new", "--remote-debugging-pipe", f"--user-data-dir={self.room}/profile", "--no-first-run", "--disable-gpu",
            "--disable-background-networking", "--disable-component-update", "--disable-sync", "--disable-default-apps", "--disable-dev-shm-usage",
            "--host-resolver-rules=MAP * ~NOTFOUND, EXCLUDE 127.0.0.1", *(["--no-sandbox"] if os.getuid() == 0 else []), "about:blank",
        ]

        # The browser gets the ends of the pipes as its files 3 and 4. They are first copied to
        # higher numbers, so that neither overwrites the other.
        def ends():
            copies = [fcntl.fcntl(it, fcntl.F_DUPFD_CLOEXEC, 100) for it in (here[0], theirs[1])]
            os.dup2(copies[0], 3)
            os.dup2(copies[1], 4)

        self.child = subprocess.Popen(
            words, env=os.environ | {"TZ": zone, "LANG": "C.UTF-8"}, preexec_fn=ends, close_fds=False,
            stdin=subprocess.DEVNULL, stdout=subprocess.DEVNULL, stderr=subprocess.DEVNULL,
        )
        os.close(here[0])
        os.close(theirs[1])
        self.to, self.back = here[1], theirs[0]
        self.number, self.answers, self.events = 0, queue.Queue(), []
        threading.Thread(target=self.read, daemon=True).start()

    def read(self):
        waiting = b""
        while True:
            piece = os.read(self.back, 1 << 20)
            if not piece:
                return self.answers.put({"error": "the browser has ended"})
            *whole, waiting = (waiting + piece).split(b"\0")
            for text in whole:
                said = json.loads(text)
                if "id" in said:
                    self.answers.put(said)
                else:
                    self.events.append(said)

    def ask(self, method, session=None, **words):
        self.number += 1
        said = {"id": self.number, "method": method, "params": words} | ({"sessionId": session} if session else {})
        os.write(self.to, json.dumps(said).encode() + b"\0")
        answer = self.answers.get(timeout=60)
        if "error" in answer:
            raise RuntimeError(f"{method}: {answer['error']}")
        return answer["result"]

    def close(self):
        self.child.terminate()
        try:
            self.child.wait(20)
        except subprocess.TimeoutExpired:
            self.child.kill()
            self.child.wait()
        shutil.rmtree(self.room, ignore_errors=True)


class Tab:
    """A page in the browser, whose requests, errors and downloads are kept."""

    def __init__(self, browser, before=""):
        self.browser = browser
        self.target = browser.ask("Target.createTarget", url="about:blank")["targetId"]
        self.session = browser.ask("Target.attachToTarget", targetId=self.target, flatten=True)["sessionId"]
        for domain in ("Page", "Runtime", "Network", "Log"):
            self.ask(f"{domain}.enable")
        if before:
            self.ask("Page.addScriptToEvaluateOnNewDocument", source=before)

    def ask(self, method, **words):
        return self.browser.ask(method, self.session, **words)

    def close(self):
        self.browser.ask("Target.closeTarget", targetId=self.target)

    def run(self, text):
        """Returns the value of an expression, or of the promise that it returns."""
        said = self.ask("Runtime.evaluate", expression=text, returnByValue=True, awaitPromise=True)
        if "exceptionDetails" in said:
            raise RuntimeError(f"{text}: {said['exceptionDetails']}")
        return said["result"].get("value")

    def wait(self, text, seconds=60):
        """Waits until an expression is true, and returns whether it was."""
        until = time.time() + seconds
        while time.time() < until:
            if self.run(f"Boolean({text})"):
                return True
            time.sleep(0.03)
        return False

    def press(self, key):
        for kind in ("keyDown", "keyUp"):
            more = {"text": "\r"} if key == "Enter" and kind == "keyDown" else {}
            self.ask("Input.dispatchKeyEvent", type=kind, key=key, code=key, windowsVirtualKeyCode=KEYS[key], **more)

    def size(self, width, height, scale=1, is_phone=False):
        self.ask("Emulation.setDeviceMetricsOverride", width=width, height=height, deviceScaleFactor=scale, mobile=is_phone)

    def told(self, *methods):
        """Returns the events of these methods since the last call of `forget`."""
        return [it["params"] for it in list(self.browser.events) if it.get("sessionId") == self.session and it["method"] in methods]

    def forget(self):
        self.browser.events.clear()
