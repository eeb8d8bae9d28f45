"""Tests of web/page in chromium without a window, by selenium: distances, arcs that are closed by a click, isochrones, suppositions, and a server that goes and comes under the page."""
import pathlib
import time
from collections.abc import Callable
from typing import Any

from checks import Checks, from_osm, equal, true
from stand import TOKEN, Stand
from towns import town

PATIENCE = 180


class Page:
    """The page in a browser."""

    def __init__(self, stand: Stand, shots: pathlib.Path | None) -> None:
        from selenium import webdriver
        from selenium.webdriver.chrome.service import Service
        options = webdriver.ChromeOptions()
        for word in ("--headless=new", "--no-sandbox", "--disable-gpu", "--disable-dev-shm-usage", "--window-size=1200,800", "--no-first-run", "--disable-background-networking"):
            options.add_argument(word)
        options.binary_location = "/usr/bin/chromium"
        options.set_capability("goog:loggingPrefs", {"browser": "ALL"})
        self.stand, self.shots = stand, shots
        self.browser = webdriver.Chrome(service=Service("/usr/bin/chromedriver"), options=options)
        self.browser.set_page_load_timeout(PATIENCE)

    def __enter__(self) -> "Page":
        return self

    def __exit__(self, *_: object) -> None:
        self.browser.quit()

    def shot(self, name: str) -> None:
        if self.shots is not None:
            self.shots.mkdir(parents=True, exist_ok=True)
            time.sleep(0.7)
            self.browser.save_screenshot(str(self.shots / f"{name}.png"))

    def text(self, name: str) -> str:
        return self.browser.find_element("id", name).text

    def script(self, text: str, *words: object) -> Any:
        return self.browser.execute_script(text, *words)

    def until(self, holds: Callable[[], object], what: str) -> None:
        end = time.monotonic() + PATIENCE
        while not holds():
            true(time.monotonic() < end, f"waited in vain until {what}; server: {self.text('server')}; message: {self.text('message')}; distance: {self.text('distance')}")
            time.sleep(0.1)

    def click(self, lon: float, lat: float) -> None:
        """A click of the mouse on a position of the map."""
        from selenium.webdriver.common.action_chains import ActionChains
        x, y = self.script("const p = map.latLngToContainerPoint([arguments[1], arguments[0]]); return [p.x, p.y];", lon, lat)
        box = self.browser.find_element("id", "map")
        size = box.size
        ActionChains(self.browser).move_to_element_with_offset(box, round(x - size["width"] / 2), round(y - size["height"] / 2)).click().perform()

    def click_arc(self, arc: int) -> None:
        """A click on the middle of an arc, where it is drawn."""
        self.choose("road")
        lon, lat = self.script("const l = arcs.get(arguments[0]).getLatLngs(); const i = Math.floor((l.length - 1) / 2); return [(l[i].lng + l[i + 1].lng) / 2, (l[i].lat + l[i + 1].lat) / 2];", arc)
        self.click(lon, lat)

    def choose(self, value: str) -> None:
        self.browser.find_element("css selector", f"input[name=click][value={value}]").click()


class Pages:
    """Tests over one page. Nodes are far corners of a town, and the arc is one on the way between them."""

    def __init__(self, page: Page, stand: Stand) -> None:
        self.page, self.stand = page, stand
        network = stand.get("network").json
        west, south, east, north = network["bounds"]
        self.source, self.target = (west + (east - west) * 0.25, south + (north - south) * 0.5), (west + (east - west) * 0.75, south + (north - south) * 0.5)
        self.path = f"table/v1/car/{self.source[0]:.6f},{self.source[1]:.6f};{self.target[0]:.6f},{self.target[1]:.6f}?sources=0&destinations=1"
        self.arc = self.on_the_way()

    def value(self) -> float | None:
        return self.stand.get(self.path).json["durations"][0][0]

    def on_the_way(self) -> int:
        """An arc that makes the way longer where it is closed."""
        usual = self.value()
        for feature in self.stand.get("arcs?bbox=-180,-90,180,90").json["features"]:
            answer = self.stand.post("suppose", {"changes": [{"close": feature["id"]}], "queries": [self.path]}).json["answers"][0]["durations"][0][0]
            if answer is not None and answer > usual and feature["properties"]["metres"] > 50:
                return feature["id"]
        raise AssertionError("no arc is on the way")

    def told(self, value: float) -> str:
        whole = int(value + 0.5)
        return f"{value:.1f} s" if value < 60 else f"{whole // 60} min {whole % 60} s"

    def shows(self, text: str) -> None:
        self.page.until(lambda: self.page.text("distance") == text, f"the page shows {text}")

    def opened(self) -> None:
        self.page.browser.get(f"http://127.0.0.1:{self.stand.port}/")
        self.page.until(lambda: self.page.text("server").startswith("version 0"), "the version is shown")
        self.page.until(lambda: self.page.script("return arcs.size") > 50, "the arcs are drawn")
        self.page.shot("1-opened")

    def distance(self) -> None:
        """Also where a click hits a road."""
        self.page.choose("distance")
        self.page.click(*self.source)
        self.shows("Click where to.")
        self.page.click(*self.target)
        self.shows(self.told(self.value()))
        true(self.page.script("return layers.route.getLayers()[0].getLatLngs().length") > 2, "the way is not drawn")
        self.page.shot("2-distance")

    def refused(self) -> None:
        """Without a token nothing is changed, and it is said why."""
        self.page.click_arc(self.arc)
        self.page.until(lambda: "Authorization" in self.page.text("message"), "it is said that a token is needed")
        equal(self.stand.get("version").json["accepted"], 0)

    def closed(self) -> None:
        before = self.value()
        self.page.browser.find_element("id", "token").send_keys(TOKEN)
        self.page.click_arc(self.arc)
        self.page.until(lambda: f"closed: arc {self.arc}" in self.page.text("roads"), "the arc is closed")
        after = self.value()
        true(after > before, "the way is no longer")
        self.shows(self.told(after))
        true(self.page.text("server").startswith("version 1"), self.page.text("server"))
        self.page.shot("3-closed")
        self.page.click_arc(self.arc)
        self.page.until(lambda: "all arcs are open" in self.page.text("roads"), "the arc is open again")
        self.shows(self.told(before))

    def changed_by_others(self) -> None:
        """What somebody else closes is seen without a click."""
        before = self.value()
        self.stand.change({"close": self.arc})
        self.page.until(lambda: f"closed: arc {self.arc}" in self.page.text("roads"), "the arc is closed")
        self.page.until(lambda: self.page.text("distance") == self.told(self.value()) != self.told(before), "the distance follows")
        self.stand.change({"reopen": self.arc})
        self.shows(self.told(before))

    def isochrone(self) -> None:
        self.page.choose("isochrone")
        self.page.click(*self.source)
        self.page.until(lambda: "nodes within" in self.page.text("area"), "the area is told")
        nodes = self.stand.get(f"isochrone?from={self.source[0]:.6f},{self.source[1]:.6f}&within=60").json["features"][0]["properties"]["nodes"]
        near = int(self.page.text("area").split()[0])
        true(abs(near - nodes) <= 3, f"{near} nodes, and {nodes} from the place itself")
        true(self.page.script("return layers.area.getLayers()[0].getLayers().length") == 1, "no area is drawn")
        self.page.shot("4-isochrone")

    def supposed(self) -> None:
        """With the switch on a click closes nothing, and all is answered as if it had."""
        usual, version = self.value(), self.stand.get("version").json["accepted"]
        wanted = self.stand.post("suppose", {"changes": [{"close": self.arc}], "queries": [self.path]}).json["answers"][0]["durations"][0][0]
        self.page.browser.find_element("id", "supposing").click()
        self.page.click_arc(self.arc)
        self.shows(self.told(wanted) + " (supposed)")
        equal(self.page.text("roads"), f"supposed closed: arc {self.arc}")
        self.page.until(lambda: self.page.text("area").endswith("(supposed)"), "the area is as supposed too")
        self.page.shot("5-supposed")
        equal((self.stand.get("version").json["accepted"], self.value()), (version, usual))
        self.page.browser.find_element("id", "forget").click()
        self.shows(self.told(usual))
        self.page.browser.find_element("id", "supposing").click()

    def killed(self) -> None:
        """The server is killed and started again under the page: it says so, and goes on by itself."""
        usual = self.value()
        self.stand.kill_server()
        self.page.until(lambda: self.page.text("server").startswith("no server now"), "it says that no server is there")
        self.page.choose("distance")
        self.page.click(*self.source)
        self.page.click(*self.target)
        self.page.until(lambda: "no answer now" in self.page.text("message"), "it says that there is no answer")
        true(self.page.script("return layers.ends.getLayers().length") == 2 and self.page.text("distance") == "..", "what was clicked is not shown")
        self.page.shot("6-no-server")
        self.stand.start_server()
        self.page.until(lambda: self.page.text("server").startswith("version"), "the server is back")
        self.shows(self.told(usual))
        self.page.until(lambda: not self.page.text("message"), "it says no more that there is no answer")
        self.page.shot("7-server-again")

    def gateway_killed(self) -> None:
        """The same of the gateway."""
        self.stand.gateway.kill()
        self.stand.gateway.wait(PATIENCE)
        self.page.until(lambda: "gateway does not answer" in self.page.text("server"), "it says that the gateway is gone")
        self.stand.start_gateway()
        self.page.until(lambda: self.page.text("server").startswith("version"), "the gateway is back")

    def quiet(self) -> None:
        """No script of the page failed."""
        entries = [entry["message"] for entry in self.page.browser.get_log("browser") if entry["level"] == "SEVERE"]
        equal([entry for entry in entries if "Failed to load resource" not in entry and "ERR_" not in entry], [])


def try_page(checks: Checks, folder: pathlib.Path, program: pathlib.Path, shots: pathlib.Path | None) -> None:
    made = folder / "drawn"
    from_osm(town(folder / "drawn.osm", 10), made, "--landmarks", 3)
    with Stand(folder / "page-stand", program, made, "--seconds", 90) as stand, Page(stand, shots) as page:
        pages = Pages(page, stand)
        for name in ("opened", "distance", "refused", "closed", "changed_by_others", "isochrone", "supposed", "killed", "gateway_killed", "quiet"):
            checks.run(f"page: {name}", getattr(pages, name))
