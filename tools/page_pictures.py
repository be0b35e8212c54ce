"""Makes the pictures of pages in docs/pictures anew, by a headless Chromium.

    python3 tools/page_pictures.py [PROGRAM]

The job is that of docs/pictures/board.json, PROGRAM ./spin where none is named. Pixels depend on the browser and its letters, so
nothing compares these pictures: look at them.
"""
import os
import sys
import tempfile

ROOT = os.path.dirname(os.path.dirname(os.path.realpath(__file__)))
sys.path.insert(0, f"{ROOT}/python")

from kulzobad.page import page  # noqa: E402
from tests.browser import CHROMIUM, Browser  # noqa: E402

# A picture's name, what is asked, and how the browser is set.
PICTURES = (("page_net", "#net=n53", "light"), ("page_chip", "#chip=2,2&show=rows", "dark"))


def main(words):
    if not CHROMIUM:
        sys.exit("page_pictures: no Chromium is installed")
    with open(f"{ROOT}/docs/pictures/board.json", "rb") as file:
        made = page(file.read(), "board.json", program=words[0] if words else f"{ROOT}/spin")
    with tempfile.NamedTemporaryFile("w", suffix=".html") as file, Browser(1280, 760) as browser:
        file.write(made)
        file.flush()
        for name, part, scheme in PICTURES:
            browser.scheme(scheme)
            browser.open(file.name, part)
            browser.screenshot(f"{ROOT}/docs/pictures/{name}.png")
    return 0


if __name__ == "__main__":
    sys.exit(main(sys.argv[1:]))
