"""What is kept: in the address, in the draft of a tab, and by undoing."""
import re
import urllib.parse

OWN = "record A { int v; }\nglobal A a;\nthread mine { atomic { a.v = 1; } }\n"


def address(page):
    return page.run("return location.hash")


def an_example_doesnt_eat_ones_text(page):
    page.browser.click("#code .CodeMirror-line")
    page.browser.keys("a", held="Control")
    page.browser.keys("// my own words")
    page.ready()
    page.run("const it = document.getElementById('examples'); it.value = 'walk'; it.dispatchEvent(new Event('change'))")
    page.ready()
    assert page.source() == page.examples["walk"]
    page.run("page.editor.code.focus()")
    page.browser.keys("z", held="Control")
    assert page.source() == "// my own words", page.source()
    page.run("await page.openExample('account', null)")
    page.browser.click("#own")
    page.ready()
    assert page.source() == "// my own words", page.source()


def a_draft_survives_reload(page):
    page.browser.click("#code .CodeMirror-line")
    page.browser.keys("Home", held="Control")
    page.browser.keys("// mine ")
    page.ready()
    text = page.source()
    page.run("location.reload()")
    page.rest(0.5)
    page.ready()
    assert page.source() == text and text.startswith("// mine "), page.source()


def an_edit_of_a_link_survives_reload(page):
    page.open("#" + urllib.parse.quote(OWN))
    assert page.run("return document.getElementById('examples').value") == "", "an example's name over one's own text"
    page.browser.click("#share")
    page.browser.click("#code .CodeMirror-line")
    page.browser.keys("Home", held="Control")
    page.browser.keys("// edited ")
    page.ready()
    page.run("location.reload()")
    page.rest(0.5)
    page.ready()
    assert page.source() == "// edited " + OWN, page.source()


def a_link_holds_all(page):
    page.example("lost_update", "schedule")
    page.run("page.setFields('3')")
    page.ready()
    page.turns("p", "q", "p")
    page.browser.click("#panel-schedule button", "◂")
    page.rest(0.6)
    part = address(page)
    page.open(part)
    assert page.source() == page.examples["lost_update"] and page.run("return page.k") == "3"
    assert page.texts("[role=tab][aria-selected=true]") == ["Schedule"]
    assert page.run("return [page.views[3].turns.list, page.views[3].turns.at]") == [[0, 1, 0], 2]
    page.example("linked_list", "locks")
    page.browser.click("#panel-locks .chips button", "R head")
    page.rest(0.6)
    page.open(address(page))
    assert page.text(".chain h2") == "Why R head?", page.text("#panel-locks")
    page.example("linked_list", "outcomes")
    page.browser.click("#condition")
    page.browser.keys("print == [0]")
    page.rest(0.6)
    page.open(address(page))
    assert page.text("#verdict strong") == "Yes, in 1 of 2.", page.text("#verdict")


def a_link_is_short(page):
    page.example("walk")
    page.rest(0.6)
    part = address(page)
    assert re.fullmatch(r"#1\.[\w-]+", part) and len(part) < 420, (len(part), part)


def copying_is_told(page):
    page.browser.click("#share")
    page.browser.until("document.getElementById('toast').textContent === 'Copied the link.'")
    assert page.run("return document.getElementById('toast').classList.contains('shown')") is True


def what_cant_be_copied_is_offered(page):
    page.run("Object.defineProperty(navigator, 'clipboard', { value: undefined })")
    page.example("two_threads", "schedule")
    page.browser.click("#turns + button")
    page.browser.until("document.getElementById('offer').open")
    assert page.run("return document.querySelector('#offer input').value") == "sectc schedule --k 2"


def back_brings_back(page):
    page.example("walk")
    page.rest(0.6)
    first = address(page)
    page.run("location.hash = given[0]", urllib.parse.quote(OWN))
    page.browser.until("page.editor.text.includes('mine')")
    page.browser.back()
    page.browser.until("page.editor.text.includes('walk') || page.editor.text.includes('loop along')")
    assert page.source() == page.examples["walk"] and address(page) == first, page.source()
    page.run("location.hash = ''")
    page.rest(0.4)
    assert page.source() == page.examples["walk"], page.source()


def a_link_of_old_opens(page):
    page.open("#" + urllib.parse.quote(page.examples["walk"]))
    assert page.source() == page.examples["walk"]


def a_broken_link_is_said(page):
    for part in ("#%E0%A4%A", "#1.AAAA", "#1.q1YqSa0oUbJSKikqTQ", "#1."):
        page.open(part)
        assert "link is broken" in page.text("#toast"), (part, page.text("#toast"))
        assert page.text("#tour h2") == "An update that is lost"
    text = page.source()
    page.run("location.hash = '%E0%A4%A'")
    page.browser.until("document.getElementById('toast').textContent.includes('broken')")
    assert page.source() == text


def lines_of_windows_are_taken(page):
    page.open("#" + urllib.parse.quote(OWN.replace("\n", "\r\n") + "thread t { x = = 1; }"))
    assert page.texts("#code .fault") == ["="] and "4:16" in page.text("#reports .place"), page.text("#reports")


def colours_are_kept(page):
    page.browser.click("#theme")
    page.browser.click("#theme")
    assert page.run("return document.documentElement.dataset.theme") == "dark"
    dark = page.run("return getComputedStyle(document.body).backgroundColor")
    page.run("location.reload()")
    page.rest(0.5)
    page.ready()
    assert page.run("return getComputedStyle(document.body).backgroundColor") == dark


TESTS = [
    an_example_doesnt_eat_ones_text,
    a_draft_survives_reload,
    an_edit_of_a_link_survives_reload,
    a_link_holds_all,
    a_link_is_short,
    copying_is_told,
    what_cant_be_copied_is_offered,
    back_brings_back,
    a_link_of_old_opens,
    a_broken_link_is_said,
    lines_of_windows_are_taken,
    colours_are_kept,
]
