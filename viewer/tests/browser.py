"""A headless Chromium, and what the tests ask of a page in it."""
import contextlib
import pathlib
import shutil
import sys

# What is said where there is no browser.
MISSING = "skipped: no browser (apt-get install chromium chromium-driver python3-selenium)"

# What the boxes in the page show, after so many frames that all is drawn.
BOXES = """
const done = arguments[0];
requestAnimationFrame(() => requestAnimationFrame(() => done(Object.fromEntries(
  [...document.querySelectorAll('.node')].map((box) => [box.dataset.uid, {
    status: box.dataset.status, doings: box.dataset.doings, changed: box.classList.contains('changed'),
    badge: box.querySelector('.state .badge').getAttribute('class').split(' ')[1]}])))));
"""

# The boxes and the values after each event, as the page steps through them for a runner.
STEPS = """
const [runner, done] = arguments;
requestAnimationFrame(() => requestAnimationFrame(() => {
  page.follow = false;
  page.setRunner(runner);
  page.tree.fit(true);
  page.tree.draw();
  const steps = [];
  for (let count = 0; count <= page.length; count++) {
    page.go(count);
    steps.push({
      boxes: [...document.querySelectorAll('.node')].map((box) => ({
        uid: Number(box.dataset.uid), status: box.dataset.status, changed: box.classList.contains('changed'), doings: box.dataset.doings,
        badge: box.querySelector('.state .badge').getAttribute('class').split(' ')[1]})),
      values: [...document.querySelectorAll('#values .value')].map((row) => [
        row.dataset.name, row.querySelector('.value-text').textContent, row.classList.contains('changed')]),
      lines: [...document.querySelectorAll('#event-lines .line')].map((row) => row.querySelector('.line-text').textContent),
    });
  }
  done(steps);
}));
"""


def is_there():
    """Whether the browser, its driver and the library that drives it are there."""
    return SELENIUM and shutil.which("chromium") and shutil.which("chromedriver")


try:
    from selenium import webdriver
    from selenium.common.exceptions import WebDriverException
    from selenium.webdriver.chrome.service import Service
    from selenium.webdriver.common.by import By
    from selenium.webdriver.common.keys import Keys

    SELENIUM = True
except ImportError:
    SELENIUM = False


class Browser:
    """The browser with one page in it."""

    def __init__(self, width=1500, height=1040):
        options = webdriver.ChromeOptions()
        options.binary_location = shutil.which("chromium")
        for word in ("--headless=new", "--no-sandbox", "--disable-dev-shm-usage", f"--window-size={width},{height}", "--hide-scrollbars"):
            options.add_argument(word)
        options.set_capability("goog:loggingPrefs", {"browser": "ALL"})
        service = Service(shutil.which("chromedriver"))
        self.driver = webdriver.Chrome(options=options, service=service)
        self.driver.set_script_timeout(40)

    def open(self, file):
        self.driver.get(pathlib.Path(file).resolve().as_uri())

    def resize(self, width, height):
        """Gives the page a window of this size."""
        metrics = {"width": width, "height": height, "deviceScaleFactor": 1, "mobile": False}
        self.driver.execute_cdp_cmd("Emulation.setDeviceMetricsOverride", metrics)

    def theme(self, name):
        """Makes the system's setting the light theme or the dark one."""
        self.driver.execute_cdp_cmd("Emulation.setEmulatedMedia", {"features": [{"name": "prefers-color-scheme", "value": name}]})

    def reset(self):
        """The window and the theme as they are at first."""
        self.driver.execute_cdp_cmd("Emulation.clearDeviceMetricsOverride", {})
        self.driver.execute_cdp_cmd("Emulation.setEmulatedMedia", {"features": []})

    def processor_seconds(self):
        """The processor's time that the page's own thread has taken since the page was opened."""
        self.driver.execute_cdp_cmd("Performance.enable", {})
        metrics = self.driver.execute_cdp_cmd("Performance.getMetrics", {})["metrics"]
        return next(metric["value"] for metric in metrics if metric["name"] == "ThreadTime")

    def run(self, script, *values):
        return self.driver.execute_script(script, *values)

    def wait(self, script, *values):
        """Runs a script that calls its last argument in the end, and gives what it is called with."""
        return self.driver.execute_async_script(script, *values)

    def boxes(self):
        return {int(uid): box for uid, box in self.wait(BOXES).items()}

    def steps(self, runner=1):
        return self.wait(STEPS, runner)

    def find(self, selector):
        return self.driver.find_element(By.CSS_SELECTOR, selector)

    def text(self, selector):
        return self.find(selector).text

    def press(self, *keys):
        """Presses these keys, wherever the focus is."""
        actions = webdriver.ActionChains(self.driver)
        for key in keys:
            actions.send_keys(getattr(Keys, key) if key.isupper() and len(key) > 1 else key)
        actions.perform()

    def press_with(self, modifier, key):
        actions = webdriver.ActionChains(self.driver)
        actions.key_down(getattr(Keys, modifier)).send_keys(getattr(Keys, key)).key_up(getattr(Keys, modifier)).perform()

    def click_at(self, selector, x, y):
        """Clicks in the element, so far from its left upper corner."""
        element = self.find(selector)
        size = element.size
        actions = webdriver.ActionChains(self.driver)
        actions.move_to_element_with_offset(element, int(x - size["width"] / 2), int(y - size["height"] / 2)).click().perform()

    def complaints(self):
        """What the page wrote to the console since this was asked last."""
        return [entry["message"] for entry in self.driver.get_log("browser")]

    def close(self):
        """Ends the browser, which may have ended by itself."""
        with contextlib.suppress(WebDriverException):
            self.driver.quit()


def begin(tries=3):
    """A new browser, which may fail to start on a busy machine, and is tried again then."""
    for left in reversed(range(tries)):
        try:
            return Browser()
        except WebDriverException:
            if left == 0:
                raise


def skip():
    """Says how the browser is installed, and that nothing was tested."""
    print(MISSING)
    sys.exit(0)
