"""A chromium without a window, which is told what to do over a pipe: no port, no library."""
import base64
import json
import os
import subprocess
import time


class Fault(Exception):
    """What a page does that it should not do, or does not do."""


class Browser:
    def __init__(self, program, folder):
        to_read, self.to = os.pipe()
        self.back, to_write = os.pipe()

        def pass_pipes():
            # it reads the third file and writes the fourth
            os.dup2(to_read, 13)
            os.dup2(to_write, 14)
            os.dup2(13, 3)
            os.dup2(14, 4)

        words = [program, "--headless=new", "--no-sandbox", "--disable-gpu",
                 "--remote-debugging-pipe", "--window-size=1500,900", "--user-data-dir=" + folder,
                 "about:blank"]
        self.process = subprocess.Popen(words, preexec_fn=pass_pipes, close_fds=False,
                                        stderr=subprocess.DEVNULL)
        os.close(to_read)
        os.close(to_write)
        self.number, self.rest, self.session, self.errors = 0, b"", None, []
        target = self.ask("Target.createTarget", url="about:blank")["targetId"]
        attached = self.ask("Target.attachToTarget", targetId=target, flatten=True)
        self.session = attached["sessionId"]
        for part in ("Page", "Runtime", "Network"):
            self.ask(part + ".enable")

    def ask(self, method, **params):
        self.number += 1
        message = {"id": self.number, "method": method, "params": params}
        if self.session:
            message["sessionId"] = self.session
        os.write(self.to, json.dumps(message).encode() + b"\0")
        while True:
            answer = self.answer()
            if answer.get("method") == "Runtime.exceptionThrown":
                thrown = answer["params"]["exceptionDetails"].get("exception", {})
                self.errors.append(thrown.get("description", "?"))
            if answer.get("id") == self.number:
                return answer.get("result", answer)

    def answer(self):
        while b"\0" not in self.rest:
            piece = os.read(self.back, 1 << 20)
            if not piece:
                raise Fault("the browser ended")
            self.rest += piece
        text, self.rest = self.rest.split(b"\0", 1)
        return json.loads(text)

    def value(self, code):
        answer = self.ask("Runtime.evaluate", expression=code, returnByValue=True)
        if "exceptionDetails" in answer:
            raise Fault(f"{code}: {answer['exceptionDetails'].get('exception')}")
        return answer["result"].get("value")

    def open(self, path):
        """A page of a run or of outcomes, until it is drawn."""
        self.ask("Page.navigate", url="about:blank")
        self.ask("Page.navigate", url="file://" + path)
        for _ in range(600):
            is_drawn = "typeof view !== 'undefined' && (!!view.lay || !view.run)"
            if self.value(f"document.readyState === 'complete' && {is_drawn}"):
                return
            time.sleep(0.1)
        raise Fault(f"{path} does not open: {self.errors[:1]}")

    def press(self, key, shift=False):
        for kind in ("keyDown", "keyUp"):
            text = {"text": key} if len(key) == 1 and kind == "keyDown" else {}
            held = 8 if shift else 0
            self.ask("Input.dispatchKeyEvent", type=kind, key=key, modifiers=held, **text)

    def picture(self, path):
        with open(path, "wb") as file:
            file.write(base64.b64decode(self.ask("Page.captureScreenshot")["data"]))

    def close(self):
        os.close(self.to)
        self.process.terminate()
        self.process.wait(60)
