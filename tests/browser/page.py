"""The screen's page as a hand and an eye know it: drag, press, type, choose, and read what is drawn. Apart from the
tests, so that these say what must come and not how a browser is asked for it.
"""

from __future__ import annotations

import re
from collections.abc import Callable, Iterator
from contextlib import contextmanager
from pathlib import Path
from typing import Any

from selenium import webdriver
from selenium.common.exceptions import StaleElementReferenceException, TimeoutException
from selenium.webdriver import ActionChains, Keys
from selenium.webdriver.chrome.options import Options
from selenium.webdriver.chrome.service import Service
from selenium.webdriver.common.by import By
from selenium.webdriver.support.ui import Select, WebDriverWait

from walzhik.sheet import Sheet

CHROMIUM, CHROMEDRIVER = "/usr/bin/chromium", "/usr/bin/chromedriver"
WIDE, HIGH = 1280, 900
LONG_WAIT = 60  # seconds, only for what never comes
DRAG_STEPS = 4
CTRL, SHIFT = 2, 8  # modifiers of the browser's protocol
KEY_CODES = {"Escape": 27, "y": 89, "z": 90}
NAMED_KEYS = {
    "ArrowUp": "ARROW_UP",
    "ArrowDown": "ARROW_DOWN",
    "ArrowLeft": "ARROW_LEFT",
    "ArrowRight": "ARROW_RIGHT",
    "Delete": "DELETE",
}
NUMBER = re.compile(r"-?[0-9.]+(?:e-?[0-9]+)?")


@contextmanager
def browser(downloads: Path) -> Iterator[webdriver.Chrome]:
    """A browser without a window, which saves files into a folder."""
    options = Options()
    options.binary_location = CHROMIUM
    for argument in (
        "--headless=new",
        "--no-sandbox",
        "--disable-gpu",
        "--disable-dev-shm-usage",
        f"--window-size={WIDE},{HIGH}",
    ):
        options.add_argument(argument)
    options.add_experimental_option(
        "prefs", {"download.default_directory": str(downloads), "download.prompt_for_download": False}
    )
    options.set_capability("goog:loggingPrefs", {"browser": "ALL"})
    driver = webdriver.Chrome(service=Service(CHROMEDRIVER), options=options)
    try:
        yield driver
    finally:
        driver.quit()


class Page:
    """The screen in a browser, opened in a new tab and drawn."""

    def __init__(self, driver: webdriver.Chrome, address: str, downloads: Path) -> None:
        self.driver, self.address, self.downloads = driver, address, downloads
        self.is_pressed, self.at = False, (0.0, 0.0)
        driver.switch_to.new_window("tab")
        driver.execute_cdp_cmd("Emulation.setFocusEmulationEnabled", {"enabled": True})
        self.resize(WIDE, HIGH)
        self.go(address)

    def go(self, address: str) -> None:
        """Open an address in the same tab."""
        self.address = address
        self.driver.get(address)
        self.is_drawn()

    def leave(self) -> None:
        """Close the tab, and with it all that it keeps."""
        self.driver.close()
        self.driver.switch_to.window(self.driver.window_handles[0])

    def is_drawn(self) -> None:
        """Wait for the first answer."""
        self.until(lambda: self.count("path.curve") > 0, "no curve is drawn")

    def reload(self) -> None:
        self.driver.refresh()
        self.is_drawn()

    # What an eye sees.

    def until(self, is_so: Callable[[], object], complaint: str) -> None:
        """Wait for what must come."""
        try:
            WebDriverWait(self.driver, LONG_WAIT, 0.02, [StaleElementReferenceException]).until(lambda _: is_so())
        except TimeoutException as error:
            raise AssertionError(complaint) from error

    def script(self, text: str, *arguments: Any) -> Any:
        return self.driver.execute_script(text, *arguments)

    def count(self, selector: str) -> int:
        return int(self.script("return document.querySelectorAll(arguments[0]).length", selector))

    def text(self, control: str) -> str:
        return str(self.script("return document.getElementById(arguments[0]).textContent", control))

    def value(self, control: str) -> int:
        return int(self.script("return document.getElementById(arguments[0]).value", control))

    def lists(self) -> Sheet:
        """The lists that the controls show, read at one moment."""
        read = """
            const numbers = (kind) => [...document.querySelectorAll(`[id^="${kind}-"]`)]
                .filter((each) => "value" in each).map((each) => [each.id, Number(each.value)]);
            const inRows = (wood) => numbers("coefficient").filter(([id]) => id.endsWith(wood));
            return [...["break", "degree", "order"].map(numbers), ...["ring", "earlywood", "latewood"].map(inRows)]"""
        found = [{int(id.split("-")[1]): int(number) for id, number in each} for each in self.script(read)]
        breaks, degrees, orders, ring, early, late = ([each[place] for place in sorted(each)] for each in found)
        return Sheet(breaks, degrees, orders, list(zip(early or ring, late or ring)))

    def path(self, wood: str, kind: str = "curve") -> list[tuple[str, list[float]]]:
        """The commands of a curve's path with their numbers; of the former one for the kind ghost."""
        found = self.script(
            "return document.querySelector(`path[data-${arguments[1]}=\"${arguments[0]}\"]`)?.getAttribute('d')",
            wood,
            kind,
        )
        commands = re.findall(r"([MLQC])([^MLQC]*)", found or "")
        return [(letter, [float(number) for number in NUMBER.findall(body)]) for letter, body in commands]

    def widths(self, wood: str) -> str:
        """The path of the measured widths beside a curve."""
        return str(
            self.script(
                "return document.querySelector(arguments[0])?.getAttribute('d')", f"path.rings.{wood}:not(.index)"
            )
        )

    def chosen(self, control: str) -> str:
        """The value of a select."""
        return str(self.script("return document.getElementById(arguments[0]).value", control))

    def low(self, wood: str) -> str:
        return str(
            self.script("return document.querySelector(`path[data-low=\"${arguments[0]}\"]`).getAttribute('d')", wood)
        )

    def stroke(self, wood: str) -> str:
        return str(
            self.script(
                'return getComputedStyle(document.querySelector(`path.curve[data-curve="${arguments[0]}"]`)).stroke',
                wood,
            )
        )

    def is_stale(self) -> bool:
        return self.count("#picture.stale") == 1

    def is_invalid(self, control: str) -> bool:
        return self.count(f'#{control}[aria-invalid="true"]') == 1

    def words_of(self, control: str) -> str:
        """The words that a marked control is described by."""
        read = """
            const at = document.getElementById(arguments[0]).getAttribute("aria-describedby");
            return at ? document.getElementById(at).textContent : ''"""
        return str(self.script(read, control))

    def is_beside(self, control: str) -> bool:
        """Whether the words stand right behind the control's own row or field."""
        read = """
            const control = document.getElementById(arguments[0]);
            const words = document.getElementById(control.getAttribute("aria-describedby"));
            return control.closest("tr, .field").nextElementSibling.contains(words)"""
        return bool(self.script(read, control))

    def focused(self) -> str:
        """The name of the control that has the focus."""
        return str(
            self.script(
                "const at = document.activeElement;"
                "return at.getAttribute('aria-label') ?? at.labels?.[0]?.textContent ?? (at.closest('main, header') ? at.textContent : at.tagName)"
            )
        )

    def focus_is_lost(self) -> bool:
        return bool(self.script("return [document.body, null].includes(document.activeElement)"))

    def spot(self, control: str) -> tuple[float, float]:
        """Where the middle of a handle is in the window, to which the page is scrolled."""
        read = """
            const shape = document.querySelector(`[data-control="${arguments[0]}"] path`);
            const { top, bottom } = shape.getBoundingClientRect();
            if (top < 0 || bottom > innerHeight) shape.scrollIntoView({ block: "center", behavior: "instant" });
            const box = shape.getBoundingClientRect();
            return [box.x + box.width / 2, box.y + box.height / 2]"""
        x, y = self.script(read, control)
        return float(x), float(y)

    def ring_spot(self, ring: float, height: float = 0.5) -> tuple[float, float]:
        """Where a ring is in the window, at a share of the picture's height, by the curve's own transform."""
        read = """
            const svg = document.getElementById("picture"), curve = document.querySelector("path.curve");
            const y = () => svg.getBoundingClientRect().y + svg.clientHeight * arguments[1];
            if (y() < 0 || y() > innerHeight) svg.scrollIntoView({ block: "center", behavior: "instant" });
            return [new DOMPoint(arguments[0], 0).matrixTransform(curve.getScreenCTM()).x, y()]"""
        x, y = self.script(read, ring, height)
        return float(x), float(y)

    def rings_in_sight(self) -> tuple[float, float]:
        """The first and the last ring of the axis, by the curve's own transform."""
        read = """
            const back = document.querySelector("path.curve").getScreenCTM().inverse();
            const svg = document.getElementById("picture").getBoundingClientRect();
            const rect = document.querySelector("#inside rect");
            const x = svg.x + Number(rect.getAttribute("x")), width = Number(rect.getAttribute("width"));
            return [x, x + width].map((each) => new DOMPoint(each, 0).matrixTransform(back).x)"""
        first, last = self.script(read)
        return round(first, 3), round(last, 3)

    def colour(self, selector: str, name: str) -> tuple[float, ...]:
        """A colour as the browser has worked it out, three shares of 255."""
        found = self.script(
            "return getComputedStyle(document.querySelector(arguments[0]))[arguments[1]]", selector, name
        )
        return tuple(float(each) for each in NUMBER.findall(found)[:3])

    def fits(self, *selectors: str) -> bool:
        """Whether elements are there, and all of each is within the window from side to side."""
        read = """
            const all = [...arguments].flatMap((each) => [...document.querySelectorAll(each)]);
            return all.length > 0 && all.every((each) => {
                const box = each.getBoundingClientRect();
                return box.width > 0 && box.left >= 0 && box.right <= innerWidth;
            })"""
        return bool(self.script(read, *selectors))

    # What a hand does.

    def resize(self, wide: int, high: int) -> None:
        self.driver.set_window_size(wide, high)

    def window(self, wide: int, high: int) -> None:
        """A page of this size, without what a browser has around it; phones are narrower than its windows."""
        told = {"width": wide, "height": high, "deviceScaleFactor": 1, "mobile": False}
        self.driver.execute_cdp_cmd("Emulation.setDeviceMetricsOverride", told)
        self.until(lambda: self.script("return innerWidth") == wide, "the window has not this size")

    def drag(self, control: str, across: int, down: int) -> None:
        """Drag a handle by pixels, in steps as a hand does."""
        self.hold(control, across, down)
        self.let_go()

    def hold(self, control: str, across: int, down: int, steps: int = DRAG_STEPS) -> None:
        """Drag a handle by pixels, and keep it held."""
        x, y = self.spot(control)
        self.mouse("mouseMoved", x, y)
        self.mouse("mousePressed", x, y)
        for step in range(1, steps + 1):
            self.mouse("mouseMoved", x + across * step / steps, y + down * step / steps)

    def nudge(self, across: int, down: int, times: int) -> None:
        """Move what is held further, again and again."""
        for _ in range(times):
            self.mouse("mouseMoved", self.at[0] + across, self.at[1] + down)

    def let_go(self) -> None:
        self.mouse("mouseReleased", *self.at)

    def mouse(self, kind: str, x: float, y: float, count: int = 1) -> None:
        """What the mouse does, by the browser's own protocol: so that a drag outlasts a question of the test."""
        self.is_pressed = kind == "mousePressed" or (self.is_pressed and kind == "mouseMoved")
        self.at = x, y
        button = "none" if kind == "mouseMoved" and not self.is_pressed else "left"
        told = {"type": kind, "x": x, "y": y, "button": button, "buttons": int(self.is_pressed), "clickCount": count}
        self.driver.execute_cdp_cmd("Input.dispatchMouseEvent", told)

    def press_key(self, key: str, modifiers: int = 0) -> None:
        """A key by the browser's own protocol: in the middle of a drag."""
        for kind in ("rawKeyDown", "keyUp"):
            told = {"type": kind, "key": key, "modifiers": modifiers, "windowsVirtualKeyCode": KEY_CODES[key]}
            self.driver.execute_cdp_cmd("Input.dispatchKeyEvent", told)

    def touch(self, kind: str, *points: tuple[float, float]) -> None:
        """A finger, by the browser's own protocol: touchStart, touchMove, touchEnd or touchCancel."""
        told = {"type": kind, "touchPoints": [{"x": x, "y": y} for x, y in points]}
        self.driver.execute_cdp_cmd("Input.dispatchTouchEvent", told)

    def wheel(self, x: float, y: float, turned: int, modifiers: int = 0) -> None:
        """Turn the wheel at a place; modifiers as the browser's protocol has them."""
        told = {"type": "mouseWheel", "x": x, "y": y, "deltaX": 0, "deltaY": turned, "modifiers": modifiers}
        self.driver.execute_cdp_cmd("Input.dispatchMouseEvent", told)

    def double_click(self, x: float, y: float) -> None:
        for count in (1, 2):
            for kind in ("mousePressed", "mouseReleased"):
                self.mouse(kind, x, y, count)

    def media(self, **features: str) -> None:
        """What the system is said to prefer, until the next time of asking."""
        told = [{"name": name.replace("_", "-"), "value": value} for name, value in features.items()]
        self.driver.execute_cdp_cmd("Emulation.setEmulatedMedia", {"features": told})

    def key(self, control: str, name: str, shift: bool = False) -> None:
        """Focus a handle and press a key."""
        self.focus_handle(control)
        self.keys(*([Keys.SHIFT] if shift else []), getattr(Keys, NAMED_KEYS.get(name, name)))

    def focus_handle(self, control: str) -> None:
        self.script('document.querySelector(`[data-control="${arguments[0]}"]`).focus()', control)

    def keys(self, *keys: str) -> None:
        """Press keys together, wherever the focus is."""
        hand = ActionChains(self.driver, duration=0)
        for each in keys[:-1]:
            hand.key_down(each)
        hand.send_keys(keys[-1])
        for each in reversed(keys[:-1]):
            hand.key_up(each)
        hand.perform()

    def focus(self, label: str) -> None:
        self.script('document.querySelector(`[aria-label="${arguments[0]}"]`).focus()', label)

    def enter(self) -> None:
        ActionChains(self.driver, duration=0).send_keys(Keys.ENTER).perform()

    def erase(self, control: str) -> None:
        """Delete the last character of a field, and stay there."""
        self.driver.find_element(By.ID, control).send_keys(Keys.END, Keys.BACKSPACE)

    def middle(self, control: str) -> tuple[float, float]:
        """Where the middle of a control is in the window."""
        read = """
            const box = document.getElementById(arguments[0]).getBoundingClientRect();
            return [box.x + box.width / 2, box.y + box.height / 2]"""
        x, y = self.script(read, control)
        return float(x), float(y)

    def write(self, control: str, text: str) -> None:
        """Type behind what a field holds, and stay there."""
        self.driver.find_element(By.ID, control).send_keys(Keys.END, text)

    def shortcut(self, letter: str) -> None:
        self.keys(Keys.CONTROL, letter)

    def click(self, selector: str) -> None:
        self.driver.find_element(By.CSS_SELECTOR, selector).click()

    def press(self, *buttons: str) -> None:
        for button in buttons:
            self.until(lambda: self.is_usable(button), f"the button {button} can't be pressed")
            self.driver.find_element(By.ID, button).click()

    def is_usable(self, button: str) -> bool:
        return self.count(f'#{button}:not([aria-disabled="true"])') == 1

    def open_file(self, path: Path) -> None:
        self.driver.find_element(By.ID, "open").send_keys(str(path))

    def choose(self, control: str, value: str) -> None:
        Select(self.driver.find_element(By.ID, control)).select_by_value(value)

    def type(self, control: str, text: str) -> None:
        field = self.driver.find_element(By.ID, control)
        field.send_keys(Keys.CONTROL, "a")
        field.send_keys(text, Keys.TAB)

    def saved(self, kind: str, name: str) -> bytes:
        """The file that a button saves."""
        (self.downloads / name).unlink(missing_ok=True)
        self.press(f"save-{kind}")
        return self.comes(name)

    def comes(self, name: str) -> bytes:
        """The file of a name, once the browser has saved it."""
        path = self.downloads / name
        self.until(
            lambda: path.exists() and path.stat().st_size and not path.with_name(f"{name}.crdownload").exists(),
            f"{name} is not saved",
        )
        return path.read_bytes()
