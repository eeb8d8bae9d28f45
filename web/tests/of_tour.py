#!/usr/bin/python3
"""The browser in the tour of docs/WEB.md, for tools/try_web_tour.sh: it tells `ready` when it has clicked, and ends once the page shows the change that is made by HTTP then."""
import pathlib
import sys

sys.path.insert(0, str(pathlib.Path(__file__).resolve().parent))
sys.dont_write_bytecode = True

from of_page import Page

SOURCE, TARGET, ARC = (13.6876, 52.0003), (13.6893, 51.9983), 14


def main() -> None:
    with Page(None, pathlib.Path("/steps")) as page:
        page.browser.get("http://127.0.0.1:5000/")
        page.until(lambda: page.script("return arcs.size") == 16, "the arcs are drawn")
        page.click(*SOURCE)
        page.click(*TARGET)
        page.until(lambda: page.text("distance") == "35.0 s", "the distance is shown")
        page.shot("1-distance")
        page.browser.find_element("id", "supposing").click()
        page.click_arc(ARC)
        page.until(lambda: page.text("distance") == "1 min 1 s (supposed)", "what is supposed is shown")
        page.shot("2-supposed")
        page.browser.find_element("id", "supposing").click()
        page.until(lambda: page.text("distance") == "35.0 s", "the distance is shown again")
        print("ready", flush=True)
        page.until(lambda: page.text("distance") == "1 min 1 s", "the change is shown")
        page.shot("3-changed")
        print("the page showed 35.0 s, 1 min 1 s as a supposition, and 1 min 1 s behind the change", flush=True)


if __name__ == "__main__":
    main()
