"""What overlaps: quick changes of views and of the text, what is stopped, and workers that are ended."""
from page import ENDLESS, wide

HEAVY = wide(4, 2)


def a_late_answer_stays_in_its_view(page):
    page.write(HEAVY)
    page.run("page.openView('outcomes'); page.openView('locks')")
    page.browser.until("!page.sectc.isBusy")
    page.rest(0.3)
    assert page.texts("[role=tab][aria-selected=true]") == ["Locks"]
    assert page.texts("[role=tabpanel]") and "takes these locks" in page.texts("[role=tabpanel]")[0], page.texts(
        "[role=tabpanel]"
    )
    assert len(page.texts("[role=tabpanel]")) == 1


def a_long_run_stays_in_its_view(page):
    page.write(ENDLESS)
    page.view("schedule")
    page.run("page.views[3].deed((turns) => turns.toTheEnd()); page.openView('locks')")
    page.rest(0.5)
    assert page.texts("[role=tab][aria-selected=true]") == ["Locks"] and len(page.texts("[role=tabpanel]")) == 1
    assert "takes these locks" in page.texts("[role=tabpanel]")[0]


def a_run_ends_with_its_program(page):
    page.write(ENDLESS)
    page.view("schedule")
    page.run(
        "page.views[3].deed((turns) => turns.toTheEnd()); page.openText(given[0], null)", page.examples["two_threads"]
    )
    page.ready()
    page.rest(0.5)
    assert page.run("return page.views[3].turns.list.length") == 0
    assert page.texts("#panel-schedule .thread-card .thread") == ["p", "q"]


def stop_stops_what_a_view_asks(page):
    page.write(wide(8, 4))
    page.view("outcomes")
    page.browser.click("#panel-outcomes button", "go through 100,000")
    page.browser.until("document.getElementById('work').classList.contains('busy')")
    assert page.run("return document.getElementById('panels').getAttribute('aria-busy')") == "true"
    page.rest(0.2)
    page.browser.click("#stop")
    page.browser.until("!page.sectc.isBusy", seconds=2)
    assert "No answer: it was stopped." in page.text("#panel-outcomes"), page.text("#panel-outcomes")
    assert page.text("#toast") == "Stopped."
    page.rest(0.4)
    page.example("two_threads", "outcomes")
    assert page.text("#count") == "1 outcome of 4 states", page.text("#panel-outcomes")
    page.view("locks")
    assert "takes these locks" in page.text("#panel-locks")


def an_edit_ends_what_is_at_work_without_a_complaint(page):
    page.write(wide(8, 4))
    page.run("page.openView('outcomes')")
    page.browser.until("document.getElementById('work').classList.contains('busy')")
    page.browser.click("#code .CodeMirror-line")
    page.browser.keys("//")
    page.browser.until("page.program.version === page.version", seconds=5)
    assert page.browser.complaints() == []
    assert "//" in page.run("return page.program.text.slice(0, 60)")


def young_workers_are_left_to_answer(page):
    page.example("walk")
    before = page.run("return page.sectc.started")
    page.browser.click("#code .CodeMirror-line")
    for _ in range(20):
        page.browser.keys("/")
    page.ready()
    assert page.run("return page.sectc.started") == before, before


def one_module_serves_all_workers(page):
    page.write(wide(8, 4))
    page.run("page.openView('outcomes')")
    page.rest(0.6)
    page.write(page.examples["two_threads"])
    page.ready()
    assert page.run("return page.sectc.started") >= 2
    assert (
        page.run(
            "return performance.getEntriesByType('resource').filter((it) => it.name.endsWith('sectc.wasm')).length"
        )
        == 1
    )


def focus_stays_at_what_was_pressed(page):
    page.example("two_threads", "schedule")
    page.browser.click("#panel-schedule button", "turn of q")
    for _ in range(2):
        page.browser.keys("Enter")
        page.ready()
        page.rest(0.1)
    assert page.run("return page.views[3].turns.list") == [1, 1, 1], page.run("return page.views[3].turns.list")
    assert page.focused() == "turn of q", page.focused()
    page.run("document.getElementById('slider').focus()")
    for wanted in (2, 1):
        page.browser.keys("Left")
        page.rest(0.1)
        assert page.run("return [page.views[3].turns.at, document.activeElement.id]") == [wanted, "slider"]
    page.example("linked_list", "locks")
    page.browser.click("#panel-locks .chips button", "R head")
    assert page.focused() == "R head", page.focused()
    page.browser.keys("Enter")
    assert page.focused() == "R head" and not page.texts(".chain"), page.focused()


def six_quick_clicks_are_six_turns(page):
    page.example("two_threads", "schedule")
    page.probe("clicks", "turn of p", 6)
    page.ready()
    page.rest(0.2)
    assert page.run("return page.views[3].turns.list.length") == 6, page.run("return page.views[3].turns.list")


TESTS = [
    a_late_answer_stays_in_its_view,
    a_long_run_stays_in_its_view,
    a_run_ends_with_its_program,
    stop_stops_what_a_view_asks,
    an_edit_ends_what_is_at_work_without_a_complaint,
    young_workers_are_left_to_answer,
    one_module_serves_all_workers,
    focus_stays_at_what_was_pressed,
    six_quick_clicks_are_six_turns,
]
