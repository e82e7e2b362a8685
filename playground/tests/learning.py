"""The tour and the legend."""
STEPS = 8


def the_tour_has_eight_steps(page):
    for step in range(STEPS):
        assert f"Tour {step + 1} of {STEPS}" in page.text("#tour") and page.texts("#tour strong")[0].endswith(
            "?"
        ), page.text("#tour")
        right = page.run("const { STEPS } = await import('./tour.js'); return STEPS[given[0]].right", step)
        page.browser.click(f"#tour .choices button:nth-child({(right + 1) % 3 + 1})")
        assert page.text("#tour .after").startswith("Not so."), page.text("#tour .after")
        page.browser.click(f"#tour .choices button:nth-child({right + 1})")
        assert page.text("#tour .after").startswith("Yes."), page.text("#tour .after")
        if step + 1 < STEPS:
            page.browser.click("#tour button", "Next")
            page.ready()


def the_tours_answers_hold(page):
    page.browser.until("!!document.querySelector('#panel-outcomes .outcomes')")
    assert page.texts(".outcomes tbody tr td:first-child") == ["1", "2"]
    page.run("await page.tour.go(1)")
    page.turns("p", "p", "p", "p", "p", "q", "q", "q", "q")
    assert page.text(".thread-card.waits .wait").replace(" ", "") == "waitsforXapholdsX"
    page.run("await page.tour.go(2); page.views[0].choose(0, 0)")
    chain = page.texts(".chain li")
    assert chain[-1].startswith("v = p.val") and sum(it.startswith("v = p.val") for it in chain) == 3, chain
    page.run("await page.tour.go(3)")
    page.turns("r")
    page.browser.click("#panel-schedule [aria-label='w up to the end of its section']")
    page.ready()
    page.run(
        "await page.views[3].deed((turns) => turns.until((moment) => moment.events[0]?.deed === 'again', () => [0]))"
    )
    assert page.text("#told").startswith("r again"), page.text("#told")
    page.run("await page.tour.go(4); page.rewrite((text) => text.replace(' protected_by g', ''))")
    page.ready()
    assert page.texts(".inlay .lock") == ["W c", "R d"]
    page.run("await page.tour.go(6)")
    page.browser.click("#reports .remedy", "remove all")
    page.ready()
    assert page.texts(".inlay .lock")[0] == "R a"
    page.run("await page.tour.go(7)")
    assert (
        page.texts("td.where") == ["◐ sometimes"] * 2
        and page.run("page.view.choose(0, 1); return document.querySelector('#panel-pairs .told').textContent").count(
            "x is b"
        )
        == 1
    )


def words_tell_what_they_mean(page):
    for word, says in (("R", "read the object"), ("IX", "below"), ("class", "can't tell apart"), ("k", "fields")):
        page.browser.click(f"#legend [data-term='{word}']")
        assert says in page.text("#explained"), page.text("#explained")
    box, word = page.probe("corners", ["#explained", "#legend [data-term='k']"])
    assert abs(box[0] - word[0]) < 340 and box[1] < word[1], (box, word)
    page.browser.keys("Escape")
    assert not page.texts("#explained")
    assert page.run("return document.activeElement.dataset.term") == "k"


def the_tour_ends(page):
    page.browser.click("#tour [aria-label='end the tour']")
    assert not page.texts("#tour")
    page.browser.click("#start")
    page.ready()
    assert page.text("#tour h2") == "An update that is lost"


TESTS = [the_tour_has_eight_steps, the_tours_answers_hold, words_tell_what_they_mean, the_tour_ends]
