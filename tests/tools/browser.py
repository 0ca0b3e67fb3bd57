"""Chromium without a window, led by its debugging pipe, for tests of pages that need no other file."""
import json
import os
import shutil
import subprocess
import tempfile
import time

PROGRAM = shutil.which("chromium") or shutil.which("chromium-browser") or shutil.which("google-chrome")

# Of the keys that are pressed here: the number of each, and the text that it makes.
KEYS = {"Tab": (9, ""), "Enter": (13, "\r"), " ": (32, " ")}


class Browser:
    """One page in a browser of its own, which ends with the block."""

    def __enter__(self):
        self.profile = tempfile.mkdtemp()
        read_call, self.calls = os.pipe()
        answers, write_answer = os.pipe()
        # Calls come by the stream 3, answers go by the stream 4, and a zero byte ends each.
        call = ["sh", "-c", f'exec "$0" "$@" 3<&{read_call} 4>&{write_answer}', PROGRAM, "--headless", "--no-sandbox", "--disable-gpu",
                f"--user-data-dir={self.profile}", "--remote-debugging-pipe", "about:blank"]
        nowhere = {name: subprocess.DEVNULL for name in ("stdin", "stdout", "stderr")}
        self.process = subprocess.Popen(call, pass_fds=(read_call, write_answer), **nowhere)
        os.close(read_call)
        os.close(write_answer)
        self.answers, self.number, self.kept, self.session = os.fdopen(answers, "rb", buffering=0), 0, b"", None
        target = next(one for one in self.call("Target.getTargets")["targetInfos"] if one["type"] == "page")
        self.session = self.call("Target.attachToTarget", targetId=target["targetId"], flatten=True)["sessionId"]
        return self

    def __exit__(self, *_):
        self.session = None
        self.call("Browser.close")
        self.process.wait(timeout=300)
        os.close(self.calls)
        self.answers.close()
        shutil.rmtree(self.profile, ignore_errors=True)

    def call(self, method, **words):
        """What the browser answers to a call of its debugging protocol."""
        self.number += 1
        sent = {"id": self.number, "method": method, "params": words, **({"sessionId": self.session} if self.session else {})}
        os.write(self.calls, json.dumps(sent).encode() + b"\0")
        while True:
            while b"\0" not in self.kept:
                more = self.answers.read(65536)
                if not more:
                    raise EOFError("the browser has ended")
                self.kept += more
            text, _, self.kept = self.kept.partition(b"\0")
            answer = json.loads(text)
            if answer.get("id") == self.number:
                return answer["result"]

    def open(self, path):
        """Goes to a file, and waits until it is there."""
        self.call("Page.navigate", url=f"file://{path}")
        end = time.monotonic() + 300
        while self.value("document.readyState + location.protocol") != "completefile:" and time.monotonic() < end:
            time.sleep(0.05)

    def value(self, expression):
        """What an expression is on the page."""
        return self.call("Runtime.evaluate", expression=expression)["result"].get("value")

    def press(self, *keys):
        """Presses keys, as somebody does."""
        for key in keys:
            number, text = KEYS.get(key, (ord(key[0].upper()), key))
            self.call("Input.dispatchKeyEvent", type="keyDown", key=key, windowsVirtualKeyCode=number, text=text)
            self.call("Input.dispatchKeyEvent", type="keyUp", key=key, windowsVirtualKeyCode=number)
