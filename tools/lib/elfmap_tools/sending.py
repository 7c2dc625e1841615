"""The ways in which a script can send something, and a server that notes what comes."""

import contextlib
import http.server
import threading
from collections.abc import Iterator

# Puts an element into the page.
APPEND = (
    "document.{place}.append(Object.assign(document.createElement('{kind}'), {{{{ {fields} }}}}))"
)
STYLE_SHEET = "rel: 'stylesheet', href: '{address}'"
# The ways in which a script can send something to an address.
SENDING = {
    "fetch": "fetch('{address}', {{ mode: 'no-cors' }}).catch(() => null)",
    "request": (
        "(it => {{ it.onerror = () => null; it.open('GET', '{address}'); it.send(); }})"
        "(new XMLHttpRequest())"
    ),
    "beacon": "navigator.sendBeacon('{address}', 'words')",
    "picture": "new Image().src = '{address}'",
    "socket": "new WebSocket('{address}'.replace('http', 'ws'))",
    "events": "new EventSource('{address}').close",
    "script": APPEND.format(place="head", kind="script", fields="src: '{address}'"),
    "style": APPEND.format(place="head", kind="link", fields=STYLE_SHEET),
    "frame": APPEND.format(place="body", kind="iframe", fields="src: '{address}'"),
    "form": (
        "(it => {{ document.body.append(it); it.submit(); }})"
        "(Object.assign(document.createElement('form'), {{ action: '{address}' }}))"
    ),
}
IN_WORKER = "new Worker(URL.createObjectURL(new Blob([`{script}`])))"


class Listener(http.server.BaseHTTPRequestHandler):
    """Notes what it is asked for."""

    asked: list[str] = []

    def note(self) -> None:
        """Notes a request."""
        self.asked.append(f"{self.command} {self.path}")
        self.send_response(204)
        self.end_headers()

    do_GET = do_POST = note

    def log_message(self, format: str, *words: object) -> None:
        """Nothing: a request is a failure of the test, which prints it."""


@contextlib.contextmanager
def listening(asked: list[str]) -> Iterator[str]:
    """The address of a server on this machine that notes what it is asked for."""
    own = type("Own", (Listener,), {"asked": asked})
    server = http.server.ThreadingHTTPServer(("127.0.0.1", 0), own)
    threading.Thread(target=server.serve_forever, daemon=True).start()
    try:
        yield f"http://127.0.0.1:{server.server_port}"
    finally:
        server.shutdown()
        server.server_close()
