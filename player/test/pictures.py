#!/usr/bin/env python3
"""Makes the pictures of the documents from the page as it is, in a real browser.

    python3 player/test/pictures.py [FOLDER]

Without a folder they take the place of those beside the page. Status 0 too where there is no browser,
which it says.
"""

import pathlib
import sys
import time

sys.dont_write_bytecode = True

from browser import Browser, Missing

HERE = pathlib.Path(__file__).resolve().parent
PAGE = HERE.parent / "index.html"
LARGE = "document.getElementById('large').click()"
TO_STATE = "scrollTo(0, document.getElementById('state').offsetTop - document.getElementById('step').offsetHeight - 14)"
TO_PART = "document.getElementById('{}').scrollIntoView()"
FAULTY = ("const field = document.getElementById('trace');"
          "field.value = field.value.replace('A R1 00000800', 'A R3 00000800');"
          "field.dispatchEvent(new InputEvent('input', {bubbles: true}))")
SETTLE = 1.2
# The name of each, the example and its line, the screen, whether it is dark, and what is done first.
PICTURES = [
    ("picture-laptop", "belady", 16, (1280, 940), False, ""),
    ("picture-swap", "swapping", 26, (1440, 900), False, TO_STATE),
    ("picture-dark", "write-cluster", 12, (1440, 900), True, TO_STATE),
    ("picture-compare", "belady", 16, (1280, 800), False, TO_PART.format("compare")),
    ("picture-projector", "belady", 11, (1920, 1080), False, LARGE),
    ("picture-phone", "belady", 11, (390, 844), False, "scrollTo(0, document.getElementById('grid').offsetTop - 8)"),
    ("picture-phone-lying", "belady", 11, (844, 390), True, "scrollTo(0, document.getElementById('grid').offsetTop - 8)"),
    ("picture-error", "belady", 11, (1280, 640), False, FAULTY),
]


def take(browser, folder, picture):
    name, example, line, screen, dark, script = picture
    browser.screen(*screen, dark)
    browser.open("about:blank")
    browser.open(f"{PAGE.as_uri()}#example={example}&line={line}")
    begun = time.time()
    while not browser.run("return typeof Session !== 'undefined' && Boolean(Session.run)"):
        if time.time() - begun > 20:
            raise RuntimeError("the page makes no run")
        time.sleep(0.05)
    time.sleep(SETTLE)
    if script:
        browser.run(script)
        time.sleep(SETTLE)
    browser.picture(folder / f"{name}.png")
    if script == LARGE:
        browser.run(LARGE)


def main():
    folder = pathlib.Path(sys.argv[1]) if len(sys.argv) > 1 else HERE.parent
    try:
        browser = Browser()
    except Missing as fault:
        print(f"player's pictures: not made, {fault}")
        return 0
    try:
        for one in PICTURES:
            take(browser, folder, one)
    finally:
        browser.close()
    print(f"{len(PICTURES)} pictures are in {folder}")
    return 0


if __name__ == "__main__":
    sys.exit(main())
