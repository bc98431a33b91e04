"""A page printed as PDF by a Chromium, where one is installed."""
import os
import shutil
import subprocess
from pathlib import Path

import rooms
from streams import Unwritten

NAMES = ("chromium", "chromium-browser", "google-chrome", "google-chrome-stable")
SECONDS = 300


def print_pdf(page: str, out: str) -> None:
    """Prints a page; Unwritten says why it can't be. Both are absolute paths."""
    chromium = next((found for found in map(shutil.which, NAMES) if found), None)
    if chromium is None:
        raise Unwritten(f"{out} could not be written: there is no {' or '.join(NAMES[:2])}; the Debian package is chromium, and any browser prints the page")
    with rooms.room() as room:
        made = os.path.join(room, "page.pdf")
        root = ["--no-sandbox"] if os.geteuid() == 0 else []  # it refuses to run as root otherwise
        words = [chromium, "--headless", "--disable-gpu", f"--user-data-dir={room}", "--no-pdf-header-footer", "--print-to-pdf-no-header",
                 f"--print-to-pdf={made}", *root, Path(page).as_uri()]
        try:
            subprocess.run(words, stdout=subprocess.DEVNULL, stderr=subprocess.DEVNULL, timeout=SECONDS, check=False)
            shutil.copyfile(made, out)
        except subprocess.TimeoutExpired:
            raise Unwritten(f"{out} could not be written: {chromium} did not end within {SECONDS} seconds") from None
        except OSError as error:
            why = f"{chromium} printed nothing" if error.filename == made else error.strerror
            raise Unwritten(f"{out} could not be written: {why}") from None
