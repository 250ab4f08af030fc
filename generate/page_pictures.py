"""/usr/bin/python3 -m generate.page_pictures [PSI [FOLDER]]

Takes the pictures of a page of psi-page that the guides show, by headless Chromium, and saves them to
FOLDER, docs/pictures if it is not given. PSI is the built program, crates/psi/out/psi if it is not
given. It needs chromium, chromium-driver and python3-selenium.
"""

import pathlib
import subprocess
import sys
import tempfile

from selenium import webdriver
from selenium.webdriver.chrome.service import Service

TOP = pathlib.Path(__file__).resolve().parent.parent
WORDS = "--headless=new", "--no-sandbox", "--disable-gpu", "--disable-dev-shm-usage", "--hide-scrollbars"
PRESS = "document.body.dispatchEvent(new KeyboardEvent('keydown', {key: arguments[0], bubbles: true}))"
# How wide a picture is, in dots; it is as high as the page.
WIDTH = 1180
# The keys that are pressed before each picture is taken.
PICTURES = {"page.png": ["ArrowRight"] * 8, "page-hidden.png": ["ArrowRight"] * 35 + ["h", "ArrowRight"]}


def resize(driver: webdriver.Chrome, height: int) -> None:
    """Makes the part of the page that is seen so high."""
    size = {"width": WIDTH, "height": height, "deviceScaleFactor": 1, "mobile": False}
    driver.execute_cdp_cmd("Emulation.setDeviceMetricsOverride", size)


def main() -> int:
    program = pathlib.Path(sys.argv[1]) if len(sys.argv) > 1 else TOP / "crates/psi/out/psi"
    folder = pathlib.Path(sys.argv[2]) if len(sys.argv) > 2 else TOP / "docs/pictures"
    options = webdriver.ChromeOptions()
    options.binary_location = "/usr/bin/chromium"
    for word in WORDS:
        options.add_argument(word)
    with tempfile.TemporaryDirectory() as room:
        page = pathlib.Path(room, "page.html")
        call = [TOP / "tools/psi-page", TOP / "examples/tandem-blocking.toml", "0", "0", "-o", page]
        subprocess.run([*map(str, call), "--psi", str(program.resolve())], check=True)
        driver = webdriver.Chrome(service=Service("/usr/bin/chromedriver"), options=options)
        try:
            for name, keys in PICTURES.items():
                resize(driver, 800)
                driver.get(page.as_uri())
                for key in keys:
                    driver.execute_script(PRESS, key)
                resize(driver, driver.execute_script("return document.documentElement.scrollHeight"))
                driver.save_screenshot(str(folder / name))
        finally:
            driver.quit()
    return 0


if __name__ == "__main__":
    sys.exit(main())
