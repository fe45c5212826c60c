"""A page in Chromium, for the tests and for tools of dev/: scripts, texts, edits, and how it looks."""
import time
from pathlib import Path

from selenium import webdriver
from selenium.webdriver.chrome.options import Options
from selenium.webdriver.chrome.service import Service

SCRIPTS = Path(__file__).with_suffix(".js").read_text(encoding="utf-8")


class Page(webdriver.Chrome):
    """A page of a headless Chromium."""

    run, close = webdriver.Chrome.execute_script, webdriver.Chrome.quit

    def __init__(self):
        options = Options()
        for word in ("headless=new", "no-sandbox", "disable-gpu", "disable-dev-shm-usage", "no-first-run"):
            options.add_argument(f"--{word}")
        options.add_argument("--window-size=1500,900")
        options.set_capability("goog:loggingPrefs", {"browser": "ALL"})
        super().__init__(service=Service("/usr/bin/chromedriver"), options=options)
        self.set_script_timeout(600)

    def call(self, name, *words):
        """Calls a function of chromium.js and returns its value."""
        return self.run(f"{SCRIPTS}\nreturn {name}(...arguments)", *words)

    def texts(self, selector):
        return self.call("texts", selector)

    def text(self):
        return self.run("return document.body.innerText")

    def find(self, selector):
        return self.find_element("css selector", selector)

    def press(self, key):
        self.switch_to.active_element.send_keys(key)

    def console(self):
        """Returns what was written on the console since the last call."""
        return self.get_log("browser")

    def wait(self, holds, seconds=600):
        """Waits until a condition holds, and returns its value."""
        end = time.monotonic() + seconds
        while not (found := holds()):
            assert time.monotonic() < end, f"no answer in {seconds} s: {self.call('state')}"
            time.sleep(0.01)
        return found

    def open(self, url):
        """Opens the page of a desk, and waits until all of it is shown."""
        self.get(url)
        self.rest()

    def rest(self):
        self.wait(lambda: (state := self.call("state"))[0] == state[1] != "0")

    def edit(self, script):
        """Edits, and returns how many ms it took until the replies and until all was shown, and what the desk says of it."""
        return self.execute_async_script(f"{SCRIPTS}\nwatched(arguments[arguments.length - 1]);\n{script}")

    def emulate(self, width, height, scheme="light"):
        features = [{"name": "prefers-color-scheme", "value": scheme}]
        self.execute_cdp_cmd("Emulation.setEmulatedMedia", {"features": features})
        size = {"width": width, "height": height, "deviceScaleFactor": 1, "mobile": False}
        self.execute_cdp_cmd("Emulation.setDeviceMetricsOverride", size)

    def emulate_nothing(self):
        self.execute_cdp_cmd("Emulation.clearDeviceMetricsOverride", {})
        self.execute_cdp_cmd("Emulation.setEmulatedMedia", {"features": []})
