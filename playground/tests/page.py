"""The page in a browser, and the server that serves its folder."""
import http.server
import json
import os
import socketserver
import threading
import time

from browsers import SLOWER

HERE = os.path.dirname(os.path.abspath(__file__))
TOP = os.path.dirname(os.path.dirname(HERE))
OUT = f"{os.path.dirname(HERE)}/out"
VIEWS = ["locks", "graph", "pairs", "schedule", "outcomes", "compare"]
READY = "!!globalThis.page?.isSettled"
BELOW = "/somewhere/else/"


class Server(socketserver.ThreadingTCPServer):
    """
    Serves the folder, below `BELOW` as well. `missing` are names that it says aren't there, `types` other types of
    content by ending.
    """

    daemon_threads = True
    allow_reuse_address = True

    def __init__(self):
        self.missing, self.types, self.asked = set(), {}, []
        super().__init__(("127.0.0.1", 0), Handler)
        threading.Thread(target=self.serve_forever, daemon=True).start()
        self.url = f"http://127.0.0.1:{self.server_address[1]}/index.html"


class Handler(http.server.SimpleHTTPRequestHandler):
    TYPES = {".js": "text/javascript", ".wasm": "application/wasm", ".svg": "image/svg+xml"}

    def __init__(self, *words):
        super().__init__(*words, directory=OUT)

    def guess_type(self, path):
        ending = os.path.splitext(path)[1]
        return self.server.types.get(ending) or self.TYPES.get(ending) or super().guess_type(path)

    def translate_path(self, path):
        if path == "/probes.js":
            return f"{HERE}/probes.js"
        return super().translate_path(f"/{path[len(BELOW):]}" if path.startswith(BELOW) else path)

    def do_GET(self):
        name = self.path.split("?")[0].lstrip("/")
        self.server.asked.append(name)
        if name == "favicon.ico":
            self.send_response(204)
            self.end_headers()
        elif name in self.server.missing:
            self.send_error(404)
        else:
            super().do_GET()

    def end_headers(self):
        self.send_header("Cache-Control", "no-cache")
        super().end_headers()

    def log_message(self, *_words):
        pass


class Page:
    """What tests do on the page. `browser` is there for all else."""

    def __init__(self, browser, server):
        self.browser, self.server = browser, server
        with open(f"{OUT}/examples.json", encoding="utf-8") as file:
            self.examples = json.load(file)

    def open(self, part=""):
        """The page anew, with nothing kept from before."""
        self.browser.go(self.server.url.replace("index.html", "icon.svg"))
        self.browser.run("localStorage.clear(); sessionStorage.clear()")
        self.browser.go(f"{self.server.url}{part}")
        self.ready()

    def ready(self):
        self.browser.until(READY)

    def run(self, script, *words):
        return self.browser.run(script, *words)

    def write(self, text):
        """Puts a text in the place of what is there, as an example would."""
        self.run("page.tour.leave(); await page.openText(given[0], null)", text)
        self.ready()

    def example(self, name, view=None):
        self.run("page.tour.leave(); await page.openExample(given[0], given[1])", name, view)
        self.ready()

    def probe(self, name, *words):
        """What a function of `probes.js` answers."""
        return self.run("return (await import('./probes.js'))[given[0]](...given.slice(1))", name, *words)

    def view(self, key):
        self.browser.click(f"#tab-{key}")
        self.ready()

    def texts(self, selector):
        return self.run(
            "return [...document.querySelectorAll(given[0])].filter((it) => it.getClientRects().length)"
            ".map((it) => it.textContent.trim())",
            selector,
        )

    def text(self, selector):
        return " ".join(self.texts(selector))

    def turns(self, *names):
        for name in names:
            self.browser.click("#panel-schedule button", f"turn of {name}")
            self.ready()

    def replayed(self):
        """Waits until the schedule shows a run that has come to its end."""
        self.browser.until(
            "page.view.key === 'schedule' && page.isSettled && page.view.turns.list.length > 0"
            " && page.view.turns.running().length === 0"
        )

    def source(self):
        return self.run("return page.editor.text")

    def focused(self):
        return self.run("return document.activeElement.textContent.trim() || document.activeElement.id")

    def rest(self, seconds):
        time.sleep(seconds * SLOWER)


def many(statements):
    """A text of so many statements in one section."""
    lines = "".join(f"  t = a.bal; t = t + {number}; a.bal = t;\n" for number in range(statements // 3))
    return f"// many\nrecord Acct {{ int bal; }}\nglobal Acct a;\nthread p {{ int t; atomic {{\n{lines}}} }}\n"


def wide(threads, sections):
    """Threads with sections that multiply and add, so that each order comes to another end."""
    section = "atomic {{ x = a.v; x = x * 3; x = x + {n}; a.v = x; b.v = x; }} "
    bodies = "".join(
        f"thread t{thread} {{ int x; "
        + "".join(section.format(n=thread * sections + number + 1) for number in range(sections))
        + "}\n"
        for thread in range(threads)
    )
    return f"record A {{ int v; }}\nglobal A a; global A b;\n{bodies}"


ENDLESS = """record A { int v; }
global A a;
thread p { int x; while (0 == 0) { x = 1; } }
thread q { atomic { a.v = 1; } }
"""
ENDLESS_INSIDE = """record A { int v; }
global A a; global A b;
thread p { int x; atomic { a.v = 1; while (0 == 0) { x = 1; } } }
thread q { atomic { b.v = 1; } }
"""
