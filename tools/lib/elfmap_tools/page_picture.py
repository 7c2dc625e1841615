"""`tools/release page-picture FILE PICTURE.png`: the picture of the page in the manual."""

import contextlib
import hashlib
import os
import struct
import tempfile
import zlib

from .browser import Browser
from .tree import Options, read_text, write
from .web_page import page

PICTURE_SIZE = (1000, 760)
PICTURE = "docs/page.png"


def sum_of_page(browser: "Browser") -> str:
    """A sum of what the page says, and of its style: the picture of another page has another one,
    on whatever machine it is taken."""
    text = read_text("page/style.css") + browser.value("document.body.innerText")
    return hashlib.sha256(text.encode()).hexdigest()


def with_text(png: bytes, keyword: str, text: str) -> bytes:
    """A PNG file with a text in it, in a chunk after its first one, the header."""
    body = b"tEXt" + f"{keyword}\0{text}".encode("ascii")
    chunk = struct.pack(">I", len(body) - 4) + body + struct.pack(">I", zlib.crc32(body))
    end = 8 + 12 + 13
    return png[:end] + chunk + png[end:]


def picture(options: Options) -> None:
    """`tools/release page-picture FILE PICTURE.png`: what the page looks like in chromium with a
    file on it."""
    with tempfile.TemporaryDirectory() as room:
        path = write(f"{room}/elfmap.html", page())
        with contextlib.closing(Browser(path)) as browser:
            browser.choose("#chosen", os.path.abspath(options.file))
            if not browser.wait("document.body.dataset.ready"):
                why = f"{options.file} is not shown: {browser.text('#said')}"
                raise SystemExit(f"page-picture: {why}")
            screen = browser.screen(*PICTURE_SIZE)
            write(options.picture, with_text(screen, "Description", sum_of_page(browser)))
