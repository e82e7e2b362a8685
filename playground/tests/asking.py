"""Outcomes: grouped, asked, held against the program without its sections; and two variants side by side."""
from page import wide

CONDITIONS = {
    "a.bal == 1": 1,
    "a.bal == 2": 1,
    "a.bal < 3": 2,
    "a.bal == 1 || a.bal == 2": 2,
    "!(a.bal == 1)": 1,
    "thread p == done": 2,
    "thread 1 != done": 0,
    "print == []": 2,
    "#print == 0 && a.bal >= 2": 1,
    "a.bal * 2 - 1 == 1": 1,
    "a == a": 2,
    "a != null": 2,
    "print[0] == 1": 0,
    "print[0] != 1": 0,
    "a.bal.bal == 1": 0,
    "#5 == 0": 2,
}
WRONG = {
    "a.bal = 1": "column 7",
    "b.bal == 1": "column 1",
    "a.bal ==": "column 9",
    "thread z == done": "column 8",
    "a.bal == 1 $": "column 12",
    "a.bal == 1 a": "column 12",
    "(a.bal == 1": "column 12",
    "print == [1": "column 12",
}


READERS = """record Node { int val; Node next; }
global Node head; global Node two;
thread r { Node p; int v; atomic { p = head.next; v = p.val; } }
thread w { Node q; q = two; atomic { q.val = 1; } }
thread s { atomic { head.next = two; } }
"""


def ask(page, condition):
    page.run(
        "const it = document.getElementById('condition'); it.value = given[0]; it.dispatchEvent(new Event('input'))",
        condition,
    )
    return page.text("#verdict")


def conditions_are_answered(page):
    page.example("lost_update", "outcomes")
    for condition, count in CONDITIONS.items():
        found = page.probe("holding", condition)
        assert found == count, (condition, found)
    assert ask(page, "a.bal == 1").startswith("Yes, in 1 of 2."), page.text("#verdict")
    assert len(page.texts(".outcomes tr.holds")) == 1
    assert ask(page, "a.bal == 0") == "No, in no outcome."
    assert ask(page, "a.bal < 3").startswith("Yes, always: in all 2."), page.text("#verdict")


def wrong_conditions_are_told_where(page):
    page.example("lost_update", "outcomes")
    for condition, place in WRONG.items():
        assert ask(page, condition).endswith(place), (condition, page.text("#verdict"))


def a_witness_opens_as_a_schedule(page):
    page.example("lost_update", "outcomes")
    ask(page, "a.bal == 1")
    page.browser.click("#verdict button", "show how")
    page.replayed()
    assert page.run("return String(page.views[3].turns.moment.objects[0].fields[0].value)") == "1"


def outcomes_are_grouped_by_what_differs(page):
    page.example("lost_update", "outcomes")
    assert page.texts(".outcomes thead th")[:1] == ["a.bal"], page.texts(".outcomes th")
    assert page.texts(".outcomes tbody tr td:first-child") == ["1", "2"]
    page.browser.click("#panel-outcomes summary")
    assert "thread pdone" in page.text(".same"), page.text(".same")


def without_sections_stands_beside(page):
    page.example("two_threads", "outcomes")
    page.browser.until("!!document.querySelector('.apart table')")
    assert page.texts(".apart tr.wrong td:first-child") == ["1"], page.texts(".apart td")
    assert "1 outcome more that the sections keep away." in page.text(".apart")
    page.browser.click(".apart tr.wrong button", "replay")
    page.replayed()
    assert (
        "atomic { t = a.bal; }" in page.source()
        and page.run("return String(page.views[3].turns.moment.objects[0].fields[0].value)") == "1"
    )


def every_example_is_taken_apart(page):
    for name, text in page.examples.items():
        status, longest = page.probe("apart", text)
        assert status == 0 and longest <= 1, (name, status, longest)


def too_many_are_told_in_words(page):
    page.write(wide(6, 3))
    page.view("outcomes")
    page.browser.until(
        "document.getElementById('panel-outcomes').textContent.includes('too many to go through')", seconds=40
    )
    assert (
        "refused" not in page.text("#panel-outcomes")
        and page.texts("#panel-outcomes button")[0] == "go through 100,000"
    )


def variants_are_compared(page):
    page.write(READERS)
    page.view("compare")
    assert page.texts(".variants .gone") and "R class" in page.texts(".variants .gone")[0], page.text("#panel-compare")
    assert "sections 0 and 1" in page.text(".changes"), page.text("#panel-compare")
    assert page.texts(".measures tbody tr:first-child td") == [
        "1 of 3 pairs together",
        "1 of 3 pairs together, 1 sometimes",
    ], page.texts(".measures td")


def before_and_after_an_edit(page):
    page.example("protected")
    page.run("page.rewrite((text) => text.replace(' protected_by g', ''))")
    page.ready()
    page.view("compare")
    assert page.texts(".variants .gone") == ["W g"] and page.texts(".variants .new") == ["W c", "R d"], page.text(
        "#panel-compare"
    )


def a_cell_tells_by_what_they_exclude(page):
    page.example("linked_list", "pairs")
    page.browser.click("td.exclude button")
    assert "class 1" in page.text("#panel-pairs .told") and page.texts("#panel-pairs .told .term") == [
        "S",
        "IX",
    ], page.text("#panel-pairs .told")
    assert page.texts("#code .lit") == ["atomic", "atomic"]


TESTS = [
    conditions_are_answered,
    wrong_conditions_are_told_where,
    a_witness_opens_as_a_schedule,
    outcomes_are_grouped_by_what_differs,
    without_sections_stands_beside,
    every_example_is_taken_apart,
    too_many_are_told_in_words,
    variants_are_compared,
    before_and_after_an_edit,
    a_cell_tells_by_what_they_exclude,
]
