"""How it looks: in light and dark, on a phone, enlarged, with colours of the system, and to those who don't see it."""
import os
import subprocess
import sys

from page import VIEWS, many, wide

HERE = os.path.dirname(os.path.abspath(__file__))


def prepared(page, view):
    """Each view with something in it."""
    page.example({"outcomes": "two_threads", "pairs": "linked_list", "compare": "walk"}.get(view, "linked_list"), view)
    if view == "locks":
        page.run("page.view.choose(0, 0)")
    if view == "graph":
        page.run("page.view.choose(0)")
    if view == "pairs":
        page.run("page.view.choose(0, 1)")
    if view == "schedule":
        page.run("await page.view.type('sum sum sum sum sum push push push push push push')")
    if view == "outcomes":
        page.browser.until("!!document.querySelector('.apart table')")
    page.ready()


def contrast_is_enough(page):
    for scheme in ("light", "dark"):
        page.browser.media(prefers_color_scheme=scheme)
        for view in VIEWS:
            prepared(page, view)
            bad = page.probe("pale")
            assert bad == [], (scheme, view, bad)
    page.browser.media()


def dark_is_dark(page):
    page.browser.media(prefers_color_scheme="dark")
    places = ["body", "#views", "#code .CodeMirror", "#tour"]
    found = [page.probe("lightness", page.probe("background", place)) for place in places]
    page.browser.media()
    assert max(found) < 0.06, found


def forced_colours_tell_the_chosen_tab(page):
    page.browser.media(forced_colors="active")
    chosen, other = [page.probe("background", f"[role=tab][aria-selected={it}]") for it in ("true", "false")]
    page.browser.media()
    assert chosen != other, (chosen, other)


def a_phone_has_room(page):
    page.browser.window(390, 844)
    try:
        for view in VIEWS:
            prepared(page, view)
            room = page.probe("room")
            assert room["page"] <= room["window"] and room["text"] > 280, (view, room)
        assert 300 / room["letter"] > 36, room
    finally:
        page.browser.window(1280, 800)


def twice_as_large_is_usable(page):
    page.browser.window(640, 430)
    try:
        page.example("linked_list", "locks")
        room = page.probe("room")
        assert room["page"] <= room["window"] and room["height"] >= 240, room
    finally:
        page.browser.window(1280, 800)


def lines_are_wrapped(page):
    for name in page.examples:
        page.example(name)
        hidden = page.run("const it = page.editor.code.getScrollInfo(); return it.width - it.clientWidth")
        assert hidden <= 60, (name, hidden)


def axe_finds_nothing(page):
    found = subprocess.run(["node", f"{HERE}/axe.js"], stdout=subprocess.PIPE)
    if found.returncode:
        sys.exit("axe-core isn't among the resources of this Chromium")
    library = f"window.axe || (() => {{ {found.stdout.decode()}\n }})()"
    page.browser.devtools("Runtime.evaluate", expression=library)
    for scheme in ("light", "dark"):
        page.browser.media(prefers_color_scheme=scheme)
        for view in VIEWS:
            prepared(page, view)
            bad = page.probe("violations")
            assert bad == [], (scheme, view, bad)
    page.browser.media()


def keys_are_not_spoken_of(page):
    """What changes at each key is in no region that is read aloud."""
    page.example("linked_list")
    spoken = "return [...document.querySelectorAll('[aria-live], [role=status], [role=alert]')].map((it) => it.textContent)"
    before = page.run(spoken)
    page.browser.click("#code .CodeMirror-line")
    page.browser.keys("//")
    page.ready()
    assert page.run(spoken) == before, (before, page.run(spoken))
    assert page.run("return document.querySelector('#state').closest('[aria-live], [role=status]')") is None


def branching(count):
    """A section with so many tests, each with a loop in its other branch."""
    one = "if (t == {n}) {{ t = a.bal; a.bal = {n}; }} else {{ t = {n}; while (t < 3) {{ t = t + 1; }} }} "
    inside = "".join(one.format(n=number) for number in range(count))
    return f"record Acct {{ int bal; }}\nglobal Acct a;\nthread p {{ int t; atomic {{ {inside} }} }}\n"


def a_graph_is_readable(page):
    for text, nodes in ((page.examples["linked_list"], 7), (branching(2), 13), (branching(33), 199)):
        page.write(text)
        page.view("graph")
        assert len(page.texts(".block .step")) == nodes, len(page.texts(".block .step"))
        found = page.probe("graph")
        assert found["overlaps"] == 0 and found["through"] == 0 and found["size"] >= 12, found
        assert found["lines"] >= found["boxes"] - 1 and found["loops"] == max((nodes - 1) // 6, 1), found
    page.browser.click(".zoom button", "fit")
    hidden = page.run("const it = document.querySelector('.canvas'); return it.scrollHeight - it.clientHeight")
    assert page.run("return page.view.zoom") < 1 and hidden <= 4, hidden
    page.browser.click(".zoom button", "1:1")
    assert page.run("return page.view.zoom") == 1


def the_chain_is_drawn_in(page):
    page.example("linked_list", "graph")
    page.browser.click("#panel-graph .chips button", "R class 1")
    assert len(page.texts(".block .step.lit")) == 5, page.texts(".block .step.lit")
    assert page.run("return document.querySelectorAll('.graph .edge.lit').length") == 3
    assert page.texts(".block .called")[1] == "R p.next.next ← R p.next ← R p", page.texts(".block .called")


def text_and_graph_point_at_each_other(page):
    page.example("linked_list", "graph")
    page.browser.hover(".block .step:nth-child(1)", "p = head.nextR class 1R head")
    assert "".join(page.texts("#code .pointed")).replace(" ", "") == "p=head.next", page.texts("#code .pointed")
    page.run("page.editor.code.setCursor({ line: 6, ch: 6 })")
    assert page.texts(".block .step.here .text") == ["print s"], page.texts(".block .step.here")


def many_sections_have_a_matrix(page):
    page.write(wide(8, 4))
    page.view("pairs")
    assert len(page.texts(".matrix td button")) == 32 * 28, len(page.texts(".matrix td button"))


def long_code_is_drawn_in_part(page):
    page.write(many(3000))
    page.view("graph")
    assert len(page.texts(".block .step")) == 61, len(page.texts(".block .step"))
    assert page.texts(".block > button:last-child")[0].endswith("more statements")


TESTS = [
    contrast_is_enough,
    dark_is_dark,
    forced_colours_tell_the_chosen_tab,
    a_phone_has_room,
    twice_as_large_is_usable,
    lines_are_wrapped,
    axe_finds_nothing,
    keys_are_not_spoken_of,
    a_graph_is_readable,
    the_chain_is_drawn_in,
    text_and_graph_point_at_each_other,
    many_sections_have_a_matrix,
    long_code_is_drawn_in_part,
]
