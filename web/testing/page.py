"""The page in Chromium: by keyboard only, at the width of a phone, in light and in dark, and without scripts."""
import base64
import http.server
import json
import re
import shutil
import threading
import time
from collections.abc import Callable
from pathlib import Path
from typing import Any

from selenium.common.exceptions import TimeoutException
from selenium.webdriver import ActionChains, Chrome
from selenium.webdriver.chrome.options import Options
from selenium.webdriver.chrome.service import Service
from selenium.webdriver.common.by import By
from selenium.webdriver.common.keys import Keys
from selenium.webdriver.support.ui import WebDriverWait

from .feeds import Rows, write
from .running import WEB, Gateway, tp

Look = Callable[[object, str], None]
SECONDS = 60
PIXEL = base64.b64decode("iVBORw0KGgoAAAANSUhEUgAAAAEAAAABCAYAAAAfFcSJAAAADUlEQVR42mNk+M9QDwADhgGAWjR9awAAAABJRU5ErkJggg==")
SCREENSHOT = WEB / "screenshot.png"
TOWN = WEB.parent / "demo/town"
SCRIPTS_OFF = {"profile.managed_default_content_settings.javascript": 2}
# The contrast of each text with its background, by WCAG 2: the least, and the text that has it.
CONTRAST = """
const part = (c) => (c <= 0.04045 ? c / 12.92 : ((c + 0.055) / 1.055) ** 2.4);
const numbers = (color) => color.match(/[\\d.]+/g).map(Number);
const light = (color) => { const [r, g, b] = numbers(color).map((c) => part(c / 255)); return 0.2126 * r + 0.7152 * g + 0.0722 * b; };
const background = (element) => {
    for (let it = element; it; it = it.parentElement) {
        const color = getComputedStyle(it).backgroundColor;
        if ((numbers(color)[3] ?? 1) > 0) return color;
    }
    return "rgb(255, 255, 255)";
};
let least = [21, ""];
for (const element of document.querySelectorAll("body *")) {
    const text = [...element.childNodes].filter((it) => it.nodeType === 3).map((it) => it.data.trim()).join("") || element.value || "";
    if (!text || !element.checkVisibility() || element.closest("noscript, script")) continue;
    const [one, other] = [light(getComputedStyle(element).color), light(background(element))].sort((a, b) => b - a);
    const ratio = (one + 0.05) / (other + 0.05);
    if (ratio < least[0]) least = [ratio, text];
}
return least;
"""
# Ids that stand twice.
DOUBLED = """
const ids = [...document.querySelectorAll("[id]")].map((it) => it.id);
return ids.filter((it, at) => ids.indexOf(it) !== at);
"""
# What a screen reader must have a name for, and what it must be given of the page.
NAMED_ROLES = ("combobox", "listbox", "button", "link", "DisclosureTriangle", "region", "search", "heading")
PARTS = {("combobox", "From"), ("combobox", "To"), ("button", "Find journeys"), ("button", "Swap from and to"),
         ("region", "Journeys found"), ("region", "Map"), ("group", "Map of the open journey"), ("search", "Journey")}


def make_feed(folder: Path) -> None:
    """A town with names: line 4 from the harbour to the town hall, a walk, and line 9 from the market to the castle."""
    folder.mkdir()
    write(folder, "stops.txt", [
        ("stop_id", "stop_name", "stop_lat", "stop_lon"), ("H", "Café du Port", 49.50, -7.02), ("X", "Café Noir", 49.49, -7.03),
        ("T", "Town Hall", 49.51, -7.00), ("M", "<b>Market</b>", 49.512, -6.996), ("C", "Castle", 49.53, -6.97),
        ("N", "Nowhere <b>else</b>", "", "")])
    write(folder, "routes.txt", [("route_id", "route_short_name"), ("R4", 4), ("R9", 9)])
    write(folder, "trips.txt", [
        ("trip_id", "service_id", "route_id", "trip_headsign"), ("A", "D", "R4", "Town Hall"), ("B", "D", "R9", "Castle"),
        ("S", "D", "R4", "Castle")])
    calls: Rows = [("trip_id", "stop_id", "stop_sequence", "arrival_time", "departure_time")]
    for trip, stops in (("A", "H09:00:00 T09:10:00"), ("B", "M09:20:00 C09:35:00"), ("S", "H09:05:00 X09:20:00 C09:50:00")):
        calls += [(trip, it[0], place, it[1:], it[1:]) for place, it in enumerate(stops.split())]
    write(folder, "stop_times.txt", calls)
    write(folder, "transfers.txt", [("from_stop_id", "to_stop_id", "transfer_type", "min_transfer_time"), ("T", "M", 2, 240)])
    write(folder, "calendar.txt", [
        ("service_id", "monday", "tuesday", "wednesday", "thursday", "friday", "saturday", "sunday", "start_date", "end_date"),
        ("D", *[1] * 7, 20240101, 20241231)])


def chromium(preferences: dict[str, Any] | None = None) -> Chrome:
    options = Options()
    options.binary_location = shutil.which("chromium") or ""
    for word in ("--headless=new", "--no-sandbox", "--disable-dev-shm-usage", "--disable-gpu", "--window-size=1000,820", "--lang=en"):
        options.add_argument(word)
    options.add_experimental_option("prefs", preferences or {})
    options.set_capability("goog:loggingPrefs", {"browser": "ALL"})
    return Chrome(service=Service(shutil.which("chromedriver") or ""), options=options)


class Page:
    """The page in a browser, and what a traveller sees of it."""

    def __init__(self, browser: Chrome, address: str) -> None:
        self.browser = browser
        browser.get(address)

    def find(self, selector: str) -> Any:
        return self.browser.find_element(By.CSS_SELECTOR, selector)

    def all(self, selector: str) -> list[Any]:
        return self.browser.find_elements(By.CSS_SELECTOR, selector)

    def wait(self, is_so: Callable[[], object]) -> bool:
        """Whether something is so within a time."""
        try:
            WebDriverWait(self.browser, SECONDS, 0.1).until(lambda _: is_so())
        except TimeoutException:
            return False
        return True

    def press(self, *keys: str) -> None:
        """Presses keys, each where the focus is."""
        for key in keys:
            self.browser.switch_to.active_element.send_keys(key)

    def focus(self) -> str:
        return self.browser.switch_to.active_element.get_attribute("id")

    def suggested(self, name: str) -> list[str]:
        return [it.text for it in self.all(f"#{name}-stops [role=option]") if it.is_displayed()]

    def width(self, width: int, scheme: str) -> None:
        """Takes the size of a window, and a scheme of colours."""
        size = {"width": width, "height": 820, "deviceScaleFactor": 1, "mobile": width < 600}
        self.browser.execute_cdp_cmd("Emulation.setDeviceMetricsOverride", size)
        self.browser.execute_cdp_cmd("Emulation.setEmulatedMedia", {"features": [{"name": "prefers-color-scheme", "value": scheme}]})


def look_at_typing(look: Look, page: Page) -> None:
    """From the first field to the journeys by keyboard only."""
    look(page.wait(lambda: page.find("#when").get_attribute("value") == "2024-01-02T08:00"), "the time isn't set to a day that is covered")
    page.press(Keys.TAB, Keys.TAB)
    look(page.focus() == "from", f"the second Tab reaches {page.focus()!r} and not the field from")
    page.press("cafe")
    look(page.wait(lambda: page.suggested("from") == ["Café Noir X", "Café du Port H"]), f"for cafe it suggests {page.suggested('from')}")
    field, note = page.find("#from"), page.find("#from-note")
    look(field.get_attribute("aria-expanded") == "true", "the field doesn't say that its list is open")
    is_announced = note.get_attribute("aria-live") == "polite" and note.text.startswith("2 stops found")
    look(is_announced, f"the number of suggestions isn't announced: {note.text!r}")
    page.press(Keys.ARROW_DOWN, Keys.ARROW_DOWN, Keys.ARROW_UP, Keys.ARROW_DOWN)
    look(field.get_attribute("aria-activedescendant") == "from-stops-1", "the arrow keys don't mark a stop")
    look_at_contrast(look, page)
    page.press(Keys.ENTER)
    look(field.get_attribute("value") == "Café du Port" and not page.suggested("from"), "Enter doesn't choose the marked stop")
    page.press(Keys.TAB, "cast")
    look(page.wait(lambda: page.suggested("to") == ["Castle C"]), f"for cast it suggests {page.suggested('to')}")
    page.press(Keys.ESCAPE)
    look(not page.suggested("to"), "Escape doesn't close the list")
    page.press(Keys.ENTER)


def is_within_map(page: Page) -> bool:
    frame, shapes = page.find("#map").rect, [it.rect for it in page.all("#map path.end")]
    return all(frame[at] <= it[at] <= frame[at] + frame[length] for it in shapes for at, length in (("x", "width"), ("y", "height")))


def look_at_journeys(look: Look, page: Page) -> None:
    """The two journeys from the harbour to the castle, worked by hand; the second is sooner there."""
    look(page.wait(lambda: len(page.all("#journeys summary")) == 2), f"it says {page.find('main').text!r}")
    titles = [it.text.split("\n")[0] for it in page.all("#journeys summary")]
    look(titles == ["09:05 to 09:50, 45 min, no change", "09:00 to 09:35, 35 min, 1 change"], f"the journeys are {titles}")
    look("2 journeys from Café du Port to Castle" in page.find("#outcome").text, f"it says {page.find('#outcome').text!r}")
    look(page.focus() == "results", "the focus isn't at the journeys")
    line = page.find("#map path.ride").get_attribute("d")
    look(line.count("L") == 2, f"the ride isn't drawn through the stop between: {line!r}")
    page.press(Keys.TAB, Keys.TAB, Keys.ENTER)
    wanted = ["4 towards Town Hall\n09:00 board at Café du Port\n09:10 alight at Town Hall", "Walk 4 min to <b>Market</b>\nThere at 09:14",
              "6 min to change or wait", "9 towards Castle\n09:20 board at <b>Market</b>\n09:35 alight at Castle"]
    look(page.wait(lambda: [it.text for it in page.all("details[open] .legs li")] == wanted),
         f"the second journey has {[it.text for it in page.all('details[open] .legs li')]}")
    look(page.wait(lambda: len(page.all("#map path.walk")) == 1), "the map doesn't show the journey that was opened")
    counts = {kind: len(page.all(f"#map path.{kind}")) for kind in ("ride", "walk", "stop", "end")}
    look(counts == {"ride": 2, "walk": 1, "stop": 2, "end": 2}, f"the map has {counts}")
    look(is_within_map(page), "the ends of the journey are not within the map")
    ActionChains(page.browser).move_to_element(page.all("#map path.stop")[1]).perform()
    is_named = page.wait(lambda: [it.text for it in page.all("#map .leaflet-tooltip")] == ["<b>Market</b>"])
    look(is_named, "a stop on the map isn't named as text")


def look_at_the_address(look: Look, page: Page) -> None:
    """The page's address holds the question: opened again, it shows the same journeys."""
    address = page.browser.current_url
    look("fromPlace=H&toPlace=C" in address, f"the address is {address!r}")
    page.browser.get(address)
    look(page.wait(lambda: len(page.all("#journeys summary")) == 2), "the address doesn't show its journeys again")
    look(page.find("#from").get_attribute("value") == "Café du Port", "the address doesn't fill the fields again")


def look_at_refusals(look: Look, page: Page) -> None:
    """A stop that no name has, a day that isn't covered, and a journey that isn't there."""
    field = page.find("#to")
    field.clear()
    field.send_keys("zzz", Keys.ENTER)
    look(page.wait(lambda: field.get_attribute("aria-invalid") == "true"), "a name that no stop has isn't refused")
    look("suggested" in page.find("#to-note").text and page.focus() == "to", "the field isn't reached, or has no note")
    field.clear()
    field.send_keys("Castle")
    set_value = "arguments[0].value = arguments[1]; arguments[0].dispatchEvent(new Event('change'));"
    page.browser.execute_script(set_value, page.find("#when"), "2024-01-05T08:00")
    page.find("#ask").send_keys(Keys.ENTER)
    is_refused = page.wait(lambda: "not within the covered days" in page.find("#refused").text)
    look(is_refused, f"a day is refused as {page.find('#refused').text!r}")
    look(page.find("#refused").get_attribute("role") == "alert", "a refusal isn't announced")
    look_at_contrast(look, page)
    page.browser.execute_script(set_value, page.find("#when"), "2024-01-02T08:00")
    field.clear()
    field.send_keys("nowhere", Keys.ENTER)
    wanted = "No journeys from Café du Port to Nowhere <b>else</b>"
    look(page.wait(lambda: wanted in page.find("#outcome").text), f"it says {page.find('#outcome').text!r}")
    look(not page.all("b") and not page.find("#refused").is_displayed(), "a name is taken for HTML, or an old refusal stands")


def look_at_a_refused_stop(look: Look, page: Page) -> None:
    """A stop that the planner refuses, in an address that was kept from an older feed."""
    page.browser.get(page.browser.current_url.replace("toPlace=N", "toPlace=GONE"))
    look(page.wait(lambda: "no stop or station has this id. The stop is GONE." in page.find("#refused").text),
         f"a refused stop is shown as {page.find('#refused').text!r}")


def look_at_a_tree_that_comes(look: Look, page: Page, address: str) -> None:
    """A question that is refused as not stored is asked again; what the gateway says first is put in its place here."""
    page.browser.get(address)
    page.browser.execute_script("""
        const real = window.fetch;
        let plans = 0;
        window.fetch = async (path, ...more) => {
            if (!String(path).includes("api/v1/plan") || (plans += 1) > 1) return real(path, ...more);
            const body = '{"error":"the journeys from this stop are still being computed","name":"NotStored","stopId":"H"}';
            return new Response(body, { status: 503, headers: { "Retry-After": "2" } });
        };""")
    page.find("#from").send_keys("port")
    page.find("#to").send_keys("castle", Keys.ENTER)
    look(page.wait(lambda: "asked again in 2 s" in page.find("#outcome").text), f"it says {page.find('#outcome').text!r}")
    look(page.wait(lambda: len(page.all("#journeys summary")) == 2), "the question isn't asked again")


def look_at_contrast(look: Look, page: Page) -> None:
    """The contrast of each text as the page is now."""
    for scheme in ("dark", "light"):
        page.width(1000, scheme)
        ratio, text = page.browser.execute_script(CONTRAST)
        look(ratio >= 4.5, f"in {scheme} the contrast of {text[:40]!r} is {ratio:.2f}")


def look_at_looks(look: Look, page: Page) -> None:
    """Widths, contrast, and names for screen readers."""
    look_at_contrast(look, page)
    for width in (320, 360, 768, 1000):
        page.width(width, "light")
        needed = page.browser.execute_script("return document.documentElement.scrollWidth")
        look(needed <= width, f"at a width of {width} the page is {needed} wide")
        look(page.wait(lambda: is_within_map(page)), f"at a width of {width} the ends of the journey are not within the map")
    small = [it.text for it in page.all("input, button, summary") if it.is_displayed() and it.rect["height"] < 44]
    look(not small, f"too small for a finger: {small}")
    doubled = page.browser.execute_script(DOUBLED)
    look(not doubled, f"ids that stand twice: {doubled}")
    look(page.find("html").get_attribute("lang") == "en" and page.browser.title, "the page has no language or title")
    parts = read_parts(page)
    unnamed = [role for role, name in parts if role in NAMED_ROLES and not name]
    look(not unnamed, f"a screen reader has no name for {unnamed}")
    look(PARTS <= set(parts), f"a screen reader isn't given {sorted(PARTS - set(parts))}")
    look("Leave at" in [name for _, name in parts], "a screen reader has no name for the time")


def read_parts(page: Page) -> list[tuple[str, str]]:
    """The roles and names of what the browser gives a screen reader."""
    nodes = page.browser.execute_cdp_cmd("Accessibility.getFullAXTree", {})["nodes"]
    return [(it["role"]["value"], it["name"]["value"]) for it in nodes if not it["ignored"] and "name" in it]


def keep_screenshot(page: Page) -> None:
    """A small picture of the page for README.md, once the map has moved to its place."""
    time.sleep(1)
    page.browser.execute_script("window.scrollTo(0, 0); document.activeElement.blur()")
    page.browser.save_screenshot(str(SCREENSHOT))


def look_at_no_scripts(look: Look, address: str) -> None:
    browser = chromium(SCRIPTS_OFF)
    try:
        browser.get(address)
        text = browser.find_element(By.TAG_NAME, "noscript").text
        look("needs JavaScript" in text and "/api/v1/plan" in text, f"without scripts the page says {text!r}")
    finally:
        browser.quit()


def look_at_unready(look: Look, program: str, room: Path, browser: Chrome) -> None:
    """What the page says while the planner is starting: the gateway has a `tp` that never replies."""
    silent = room / "silent"
    silent.write_text(f'#!/bin/sh\n[ "$1" = serve ] || exec {program} "$@"\nexec cat >/dev/null\n')
    silent.chmod(0o755)
    gateway = Gateway(str(silent), "--feed", str(room / "named"), "--date", "20240102", "--store", str(room / "silent-store"))
    try:
        page = Page(browser, gateway.address)
        is_starting = page.wait(lambda: "starting" in page.find("#progress").text)
        look(is_starting, f"before tp replies the page says {page.find('#progress').text!r}")
    finally:
        look(gateway.end()[0] == 0, "a gateway whose tp never replies did not end with status 0")


class Tiles(http.server.BaseHTTPRequestHandler):
    """Answers each address of a tile with one pixel, if a header names the site that asks. Public servers of tiles want that."""

    def do_GET(self) -> None:
        self.send_response(200 if re.fullmatch(r"http://127\.0\.0\.1:\d+/", self.headers["Referer"] or "") else 403)
        self.send_header("Content-Type", "image/png")
        self.end_headers()
        self.wfile.write(PIXEL)

    def log_message(self, *_: Any) -> None:
        pass


def look_at_tiles(look: Look, program: str, room: Path, browser: Chrome) -> None:
    """Tiles of another address are loaded, and their owner is named, as text."""
    with http.server.ThreadingHTTPServer(("127.0.0.1", 0), Tiles) as server:
        threading.Thread(target=server.serve_forever, daemon=True).start()
        tiles = ["--tiles", f"http://127.0.0.1:{server.server_port}/{{z}}/{{x}}/{{y}}.png", "--attribution", "<b>Owner</b>"]
        gateway = Gateway(program, "--feed", str(room / "named"), "--date", "20240102", "--store", str(room / "tiles"), *tiles)
        try:
            page = Page(browser, gateway.address)
            look(page.wait(lambda: page.all("#map .leaflet-tile-loaded")), "no tile is loaded")
            named = page.find("#map .leaflet-control-attribution").text
            look(named == "<b>Owner</b>", f"the owner of the tiles is named as {named!r}")
            page.width(1000, "dark")
            color = page.browser.execute_script("return getComputedStyle(document.getElementById('map')).getPropertyValue('--ride')")
            look(color == "#0b57a4", f"over tiles in dark a ride has the colour {color}")
        finally:
            look(gateway.end()[0] == 0, "the gateway with tiles did not end with status 0")
            server.shutdown()


def take_screenshot(look: Look, program: str, room: Path) -> None:
    """Opens the page over demo/town with the first question of README.md, and keeps a picture of its second journey."""
    gateway = Gateway(program, "--feed", str(TOWN), "--date", "20270601", "--store", str(room / "page"))
    look(gateway.wait(True) and gateway.wait_for("lines", "through stops"), "the gateway has not stored all trees")
    browser = chromium()
    try:
        page = Page(browser, f"{gateway.address}?fromPlace=PIER&toPlace=LIGHT&time=2027-06-01T08:00:00")
        page.width(1100, "light")
        look(page.wait(lambda: len(page.all("#journeys summary")) == 2), f"it says {page.find('main').text!r}")
        page.all("#journeys summary")[1].click()
        look(page.wait(lambda: len(page.all("#map path.walk")) == 1), "the map doesn't show the journey that was opened")
        keep_screenshot(page)
    finally:
        browser.quit()
    look(gateway.end()[0] == 0, "the gateway under the page did not end with status 0")


def look_at_page(look: Look, program: str, room: Path) -> None:
    make_feed(room / "named")
    words = ["--feed", str(room / "named"), "--date", "20240102", "--store", str(room / "page")]
    look(tp(program, "check", "--feed", str(room / "named"))[0] == 0, "the feed has a fault")
    gateway = Gateway(program, *words)
    look(gateway.wait(True) and gateway.wait_for("lines", "through stops"), "the gateway has not stored all trees")
    browser = chromium()
    try:
        page = Page(browser, gateway.address)
        look_at_typing(look, page)
        look_at_journeys(look, page)
        look_at_looks(look, page)
        look_at_the_address(look, page)
        look_at_refusals(look, page)
        look_at_a_refused_stop(look, page)
        look_at_a_tree_that_comes(look, page, gateway.address)
        complaints = [it["message"] for it in browser.get_log("browser") if "400 (Bad Request)" not in it["message"]]
        look(not complaints, f"the browser complains: {json.dumps(complaints[:3])}")
        look_at_unready(look, program, room, browser)
        look_at_tiles(look, program, room, browser)
    finally:
        browser.quit()
    look_at_no_scripts(look, gateway.address)
    look(gateway.end() == (0, ""), "the gateway under the page did not end with status 0 and without a word")
