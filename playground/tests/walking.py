"""The main walk, in each browser: from the first screen through all views, with keys and clicks."""


def the_first_screen_says_what_it_is(page):
    assert "locks" in page.text("#brand") and "atomic" in page.text("#brand"), page.text("#brand")
    assert page.text("#tour h2") == "An update that is lost" and "Tour 1 of 8" in page.text("#tour"), page.text("#tour")
    assert page.text("#count") == "2 outcomes of 12 states", page.text("#count")
    links = page.run("return [...document.querySelectorAll('footer a')].map((it) => it.textContent)")
    assert links[:2] == ["Tutorial", "Language"], links
    for name in ("TUTORIAL", "LANGUAGE", "README"):
        assert page.run("return (await fetch(`docs/${given[0]}.html`)).status", name) == 200, name


def all_views_answer(page):
    page.run("await page.tour.go(2)")
    page.ready()
    assert page.texts(".inlay .lock") == ["R class 1", "R head", "M class 1", "W head"], page.texts(".inlay .lock")
    page.browser.click("#panel-locks .chips button", "R class 1")
    assert "v = p.val" in page.text(".chain"), page.text(".chain")
    page.view("graph")
    assert len(page.texts("#panel-graph .block .step")) == 7, page.texts("#panel-graph .block .step")
    page.view("pairs")
    assert page.texts("td.exclude") == ["✕ never together"] * 2, page.texts("td.exclude")
    page.view("schedule")
    page.turns("sum", "sum", "push", "push")
    assert (
        page.texts("#turns + button") == ["copy"]
        and page.run("return document.getElementById('turns').value") == "sectc schedule --k 2 0 0 1 1"
    )
    page.view("outcomes")
    page.browser.until("document.getElementById('count')?.textContent === '2 outcomes of 5 states'")
    page.browser.click("#condition")
    page.browser.keys("print == [5]")
    assert page.text("#verdict strong") == "Yes, in 1 of 2.", page.text("#verdict")
    page.view("compare")
    assert "Each pair of sections meets as before." in page.text("#panel-compare"), page.text("#panel-compare")


def a_program_is_typed(page):
    page.browser.click("#code .CodeMirror-line")
    page.browser.keys("a", held="Control")
    page.browser.keys("record A { int v;", "Right", "Enter", "global A a;", "Enter", "thread t { atomic { a.v = 1;")
    page.ready()
    page.browser.until("document.querySelectorAll('.inlay .lock').length === 1")
    assert page.texts(".inlay .lock") == ["W a"] and page.source().endswith("a.v = 1;}}"), page.source()


def tabs_go_by_arrows(page):
    page.browser.click("#tab-locks")
    page.browser.keys("Right")
    page.browser.keys("Right")
    assert page.focused() == "Side by side", page.focused()
    page.browser.keys("End")
    assert page.focused() == "Compare" and page.texts("[role=tab][aria-selected=true]") == ["Compare"], page.focused()
    page.browser.keys("Home")
    page.browser.keys("Left")
    assert page.focused() == "Compare", page.focused()


TESTS = [the_first_screen_says_what_it_is, all_views_answer, a_program_is_typed, tabs_go_by_arrows]
IN_BOTH = TESTS
