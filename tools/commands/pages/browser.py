"""A headless Chromium that is driven by Debian's python3-selenium."""
from __future__ import annotations

import base64
import os
import shutil

from selenium import webdriver
from selenium.common.exceptions import TimeoutException
from selenium.webdriver.chrome.options import Options
from selenium.webdriver.chrome.service import Service
from selenium.webdriver.common.action_chains import ActionChains
from selenium.webdriver.common.by import By
from selenium.webdriver.common.keys import Keys
from selenium.webdriver.support.ui import WebDriverWait
from typing import Any

PATIENCE = 30
# what overlaps, is cut, or stands beside its place; rows that are small show as many words as have room
LAYOUT = """
const found = [];
const box = (element) => element.getBoundingClientRect();
const name = (element) => `'${element.textContent.slice(0, 60)}'`;
const page = document.documentElement;
if (page.scrollWidth > innerWidth + 1) found.push(`the page is ${page.scrollWidth} wide in a window of ${innerWidth}`);
const rows = [...document.querySelectorAll('.words .row')];
rows.forEach((row, at) => {
  if (at && box(rows[at - 1]).bottom > box(row).top + 1) found.push(`${name(rows[at - 1])} overlaps ${name(row)}`);
  if (row.scrollHeight > row.clientHeight + 1) found.push(`${name(row)} is cut below`);
  if (box(row).left < box(row.parentElement).left - 1 || box(row).right > box(row.parentElement).right + 1) found.push(`${name(row)} stands outside`);
  const what = row.querySelector('.what');
  if (arguments[0] && (what.scrollWidth > what.clientWidth + 1 || what.scrollHeight > what.clientHeight + 2)) found.push(`${name(what)} is cut`);
});
const heads = [...document.querySelectorAll('.head-lanes .head')].filter((head) => box(head).width > 0);
heads.forEach((head, at) => {
  if (at && box(heads[at - 1]).right > box(head).left + 1) found.push(`the heads ${name(heads[at - 1])} and ${name(head)} overlap`);
  for (const part of head.children) if (part.scrollWidth > part.clientWidth + 1 || part.scrollHeight > part.clientHeight + 1) found.push(`the head ${name(part)} is cut`);
});
const shown = [...document.querySelectorAll('.bar > *, .bar button, .notes > *, .tools > *, .tabs button')].filter((element) => box(element).width > 0);
for (const element of shown) {
  if (element.scrollWidth > element.clientWidth + 2 && element.matches('button')) found.push(`${name(element)} is cut`);
  for (const other of shown) {
    const [one, two] = [box(element), box(other)];
    if (element !== other && !element.contains(other) && !other.contains(element) && Math.min(one.right, two.right) - Math.max(one.left, two.left) > 1.5 && Math.min(one.bottom, two.bottom) - Math.max(one.top, two.top) > 1.5) found.push(`${name(element)} overlaps ${name(other)}`);
  }
}
return [...new Set(found)].slice(0, 5);
"""


class Browser:
    """Opens pages, and keeps pictures of them in a folder where one is given."""

    def __init__(self, folder):
        options = Options()
        options.binary_location = shutil.which("chromium")
        # (root can't have Chromium's sandbox)
        for word in ["--headless=new", "--disable-gpu", "--force-color-profile=srgb", *(["--no-sandbox"] if os.geteuid() == 0 else [])]:
            options.add_argument(word)
        options.set_capability("goog:loggingPrefs", {"browser": "ALL"})
        self.driver = webdriver.Chrome(service=Service(shutil.which("chromedriver")), options=options)
        # the page's own processor time is told, on which other work of the machine has little effect
        self.driver.execute_cdp_cmd("Performance.enable", {"timeDomain": "threadTicks"})
        self.folder = folder

    def end(self) -> None:
        self.driver.quit()

    def size(self, width, height, dark=False):
        self.driver.execute_cdp_cmd("Emulation.setDeviceMetricsOverride", {"width": width, "height": height, "deviceScaleFactor": 1, "mobile": False})
        self.driver.execute_cdp_cmd("Emulation.setEmulatedMedia", {"features": [{"name": "prefers-color-scheme", "value": "dark" if dark else "light"}]})
        self.settled()

    def open(self, address):
        # (a page that is open already would only change its hash)
        self.driver.get("about:blank")
        self.driver.get(address)
        self.settled()

    def script(self, text, *values):
        return self.driver.execute_script(text, *values)

    def settled(self) -> None:
        """Waits until what was asked for is drawn."""
        self.driver.execute_async_script("const done = arguments[arguments.length - 1]; requestAnimationFrame(() => requestAnimationFrame(() => setTimeout(done, 30)));")

    def wait(self, condition):
        """Waits until the script is true; gives whether it came to be."""
        try:
            WebDriverWait(self.driver, PATIENCE, 0.05).until(lambda driver: driver.execute_script(f"return {condition}"))
            return True
        except TimeoutException:
            return False

    def keys(self, *keys: Any) -> None:
        ActionChains(self.driver).send_keys(*keys).perform()
        self.settled()

    def chord(self, held, key):
        ActionChains(self.driver).key_down(held).send_keys(key).key_up(held).perform()

    def find(self, selector):
        return self.driver.find_element(By.CSS_SELECTOR, selector)

    def click(self, selector):
        self.find(selector).click()
        self.settled()

    def click_at(self, selector, x, y):
        """Clicks so far from the left and upper edge of an element."""
        left, top = self.script("const box = arguments[0].getBoundingClientRect(); return [box.left, box.top];", self.find(selector))
        self.driver.execute_cdp_cmd("Input.dispatchMouseEvent", {"type": "mouseMoved", "x": left + x, "y": top + y})
        for kind in ("mousePressed", "mouseReleased"):
            self.driver.execute_cdp_cmd("Input.dispatchMouseEvent", {"type": kind, "x": left + x, "y": top + y, "button": "left", "clickCount": 1})
        self.settled()

    def shot_of(self, selector, height, name):
        """Keeps a fine picture of an element's upper part."""
        if self.folder:
            left, top, width = self.script("const box = document.querySelector(arguments[0]).getBoundingClientRect(); return [box.left, box.top, box.width];", selector)
            clip = {"x": left, "y": top, "width": width, "height": height, "scale": 1.75}
            with open(f"{self.folder}/{name}.png", "wb") as file:
                file.write(base64.b64decode(self.driver.execute_cdp_cmd("Page.captureScreenshot", {"format": "png", "clip": clip})["data"]))

    def text(self, selector):
        return self.script("return document.querySelector(arguments[0])?.textContent ?? ''", selector)

    def tab_to(self, condition, most=60):
        """Presses Tab until the script is true of the page; gives whether it came to be."""
        for _ in range(most):
            if self.script(f"return {condition}"):
                return True
            ActionChains(self.driver).send_keys(Keys.TAB).perform()
        return False

    def shot(self, name):
        if self.folder:
            self.driver.save_screenshot(f"{self.folder}/{name}.png")

    def layout_faults(self, whole_words):
        return self.script(LAYOUT, whole_words)

    def complaints(self):
        """What the page said of errors since the last time."""
        return [entry["message"][:300] for entry in self.driver.get_log("browser") if entry["level"] == "SEVERE"]

    def worked(self):
        """How long the page has worked since it was opened: its scripts, its layout and its drawing."""
        metrics = self.driver.execute_cdp_cmd("Performance.getMetrics", {})["metrics"]
        return next(metric["value"] for metric in metrics if metric["name"] == "TaskDuration")

    def seconds(self, text):
        """How long the page works on a script and what it draws then."""
        before = self.worked()
        self.script(text)
        self.settled()
        return self.worked() - before
