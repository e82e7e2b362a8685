"""How quick it is, what is fetched, and what the browser is allowed. Times are told, and those of an idle machine."""
import time

from browsers import SLOWER
from page import BELOW, many, wide

LINES = 27_000
ELSEWHERE = "https://example.org/"


def judge(what, took, most):
    """Tells how many milliseconds something took. It may be no more than so many."""
    print(f"{what}: {took:.0f} ms, of at most {most * SLOWER:.0f}")
    assert took < most * SLOWER, took


def the_first_answer_comes_within_a_second(page):
    took = []
    for _ in range(3):
        page.open()
        took.append(page.run("return performance.getEntriesByName('first answer')[0].startTime"))
    judge("the first answer", min(took), 1000)


def only_its_own_files_are_fetched(page):
    for view in ("graph", "schedule"):
        page.view(view)
    here = page.run("return location.origin")
    others = [name for name in page.probe("fetched") if not name.startswith(here)]
    assert others == [], others
    policy = page.run("return document.querySelector('meta[http-equiv=Content-Security-Policy]').content")
    assert "default-src 'none'" in policy, policy
    assert not any(word in policy for word in ("unsafe-inline", "http", "data:", "*")), policy
    page.run(
        "const it = new Image(); const done = new Promise((end) => { it.onerror = end; });"
        "it.src = given[0]; document.body.append(it); await done",
        ELSEWHERE,
    )
    page.run("await fetch(given[0]).then(() => { throw new Error('fetched'); }, () => {})", ELSEWHERE)
    said = " ".join(page.browser.complaints())
    assert "Content Security Policy" in said, said


def any_folder_of_a_server_will_do(page):
    """All is asked for below the folder in which the page lies."""
    page.browser.go(page.server.url.replace("/index.html", f"{BELOW}index.html"))
    page.ready()
    page.view("graph")
    below = page.run("return location.origin") + BELOW
    others = [name for name in page.run("return performance.getEntriesByType('resource').map(({ name }) => name)")
              if not name.startswith(below)]
    assert others == [] and page.texts("#panel-graph .block .step"), others
    for name in page.run("return [...document.querySelectorAll('footer a')].map((it) => it.href)"):
        assert not name.startswith(below) or page.run("return (await fetch(given[0])).status", name) == 200, name


def modules_are_asked_for_at_once(page):
    links = page.run(
        "const found = [...document.querySelectorAll('link[rel=modulepreload]')];"
        "return found.map((it) => it.getAttribute('href'))"
    )
    loaded = {name.rsplit("/", 1)[1] for name in page.probe("fetched") if name.endswith(".js")}
    assert {"main.js", "page.js", "schedule.js"} <= set(links) and set(links) <= loaded, (links, loaded)
    assert page.run("return document.querySelector('link[rel=preload]').getAttribute('href')") == "sectc.wasm"


def outcomes_come_soon(page):
    judge("outcomes of 4 threads by 2 sections", page.probe("outcomesTime", wide(4, 2)), 2000)


def a_key_is_answered_at_once(page):
    page.write(many(4080))
    took = page.probe("keyTimes", 12)
    judge("a key at 4,080 statements", took[len(took) // 2], 50)
    judge("the longest that the page is busy behind it", page.probe("longestTask", 2500), 120)


def a_mebibyte_can_be_written_in(page):
    program = "// a long text\nrecord A { int v; }\nglobal A a;\nthread t { atomic { a.v = 1; } }\n"
    lines = "".join(f"// line {number:>7} of a long text ..\n" for number in range(LINES))
    begun = time.monotonic()
    page.write(program + lines[:1_000_000])
    judge("a text of 1 MB", 1000 * (time.monotonic() - begun), 8000)
    took = page.probe("keyTimes", 8)
    judge("a key in it", took[len(took) // 2], 100)
    drawn = page.run("return document.querySelectorAll('.CodeMirror-line').length")
    assert drawn < 200, drawn


def a_hostile_text_doesnt_stop_the_page(page):
    lines = "thread t {\n" + "int x;\n" * 100_000 + "atomic {\n" * 30_000
    page.run("page.editor.text = given[0]", lines[:1_048_576])
    page.rest(0.5)
    page.write(page.examples["account"])
    assert page.texts(".inlay .lock") == ["W a"], page.texts(".inlay .lock")


only_its_own_files_are_fetched.may_complain = True
TESTS = [
    the_first_answer_comes_within_a_second,
    only_its_own_files_are_fetched,
    any_folder_of_a_server_will_do,
    modules_are_asked_for_at_once,
    outcomes_come_soon,
    a_key_is_answered_at_once,
    a_mebibyte_can_be_written_in,
    a_hostile_text_doesnt_stop_the_page,
]
