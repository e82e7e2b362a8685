"""The schedule: a run turn by turn, with what each thread does, knows, holds and waits for."""
import random

from page import ENDLESS, ENDLESS_INSIDE

MOMENT = "const { moment } = page.views[3].turns; "


def a_turn_shows_its_statement(page):
    page.example("lost_update", "schedule")
    page.turns(*["p"] * 6)
    assert page.text("#told") == "p act: t = a.bal", page.text("#told")
    assert "next:" in page.texts(".thread-card")[1] and "section 2" in page.texts(".thread-card .next")[1], page.texts(
        ".thread-card"
    )
    lit = page.probe("litForThreads")
    assert any(it == "thread-1 atomic" for it in lit), lit
    page.turns("p", "p")
    assert page.texts(".locals .changed") == ["t1"], page.texts(".locals div")


def who_waits_is_told(page):
    page.example("two_threads", "schedule")
    page.turns("p", "q", "p", "p", "p", "q", "q", "q")
    wait = page.text(".thread-card.waits .wait")
    assert wait.replace(" ", "") == "waitsforXapholdsX", wait
    assert "waits, wants" in page.text("td.waits"), page.texts("td.waits")
    assert page.probe("background", "#panel-schedule td.waits") != "rgba(0, 0, 0, 0)"
    page.write(
        "record A { int v; }\nglobal A a;\n" + "".join(f"thread {name} {{ atomic {{ a.v = 1; }} }}\n" for name in "pqr")
    )
    page.view("schedule")
    page.run("await page.views[3].type('p p p p q q q q r r r r')")
    assert "behind q" in page.texts(".thread-card.waits .wait")[1], page.texts(".thread-card.waits .wait")


def the_statement_of_a_procedure_is_lit(page):
    page.example("procedure", "schedule")
    page.run(
        "await page.view.deed((turns) => turns.until(({ threads }) => threads[0].text === 't#0 = x#0.bal', () => [0]))"
    )
    lit = "".join(page.texts("#code .at.thread-0")).replace(" ", "")
    assert "t=x.bal" in lit and "callmove(a,b,3)" in lit, lit


def moments_come_to_what_the_program_says(page):
    chance = random.Random(7)
    for name, text in page.examples.items():
        page.write(text)
        count = page.run("return page.program.threads.length")
        turns = [chance.randrange(count) for _ in range(70)]
        found, told = page.probe("lastMoment", turns)
        assert found == told, (name, turns, found, told)


def the_slider_and_keys_go_back_and_forth(page):
    page.example("two_threads", "schedule")
    page.browser.click("#panel-schedule button", "until all have ended")
    page.replayed()
    count = page.run("return page.views[3].turns.list.length")
    assert count == 18, count
    page.browser.click("#panel-schedule button", "|◂")
    page.browser.keys("Right", "Right", "Right")
    page.rest(0.2)
    assert page.run("return page.views[3].turns.at") == 3
    page.browser.keys("Home")
    page.browser.keys("1")
    page.ready()
    page.rest(0.1)
    assert page.run("return page.views[3].turns.list") == [0], page.run("return page.views[3].turns.list")


def it_runs_until_a_thread_waits(page):
    page.example("two_threads", "schedule")
    page.run("document.getElementById('waiter').value = '1'")
    page.browser.click("#panel-schedule button", "until")
    page.browser.until("page.views[3].turns.moment.threads[1].waits !== null")
    assert page.text(".thread-card.waits .thread").startswith("q")


def it_stops_at_a_marked_line(page):
    page.example("two_threads", "schedule")
    page.browser.click("#panel-schedule button", "until a marked line")
    assert "Click beside a line" in page.text("#told"), page.text("#told")
    page.example("linked_list", "schedule")
    page.browser.click(".CodeMirror-gutter-wrapper:has(.CodeMirror-linenumber) .CodeMirror-linenumber", "7")
    assert page.run("return page.editor.stops") == [7]
    page.browser.click("#panel-schedule button", "until a marked line")
    page.browser.until("page.views[3].turns.list.length > 0")
    page.ready()
    assert page.run("return page.views[3].turns.moment.threads[0].text") == "print s"


def turns_are_a_command(page):
    page.example("linked_list", "schedule")
    page.run("document.getElementById('turns').focus(); document.getElementById('turns').select()")
    page.browser.keys("sum sum push", "Enter")
    page.browser.until("page.views[3].turns.list.length === 3")
    page.ready()
    assert page.run("return document.getElementById('turns').value") == "sectc schedule --k 2 0 0 1"
    page.run("document.getElementById('turns').select()")
    page.browser.keys("nobody", "Enter")
    page.browser.until("document.getElementById('told').textContent.includes('names or numbers')")


def an_outcome_is_replayed(page):
    page.example("lost_update", "outcomes")
    page.browser.click("#panel-outcomes .outcomes tbody tr:first-child button", "replay")
    page.replayed()
    page.ready()
    found = page.run(MOMENT + "return String(moment.objects[0].fields[0].value)")
    assert found == "1", found


def an_endless_thread_is_replayed_too(page):
    page.write(ENDLESS_INSIDE)
    page.view("outcomes")
    page.browser.until("!!document.getElementById('count')")
    page.run("await page.replay([0, 1], 1000)")
    page.ready()
    found = page.run(
        MOMENT + "const { list, command } = page.view.turns;"
        "return [moment.threads.map((it) => it.standing), list.includes(0), command.slice(0, 34)]"
    )
    assert found == [["fuel", "done"], True, "sectc schedule --k 2 --fuel 1000 0"], found


def an_endless_run_is_given_up_with_a_word(page):
    page.write(ENDLESS)
    page.view("schedule")
    page.browser.click("#panel-schedule button", "until all have ended")
    page.browser.until("document.getElementById('told')?.textContent.includes('for ever')", seconds=8)
    assert len(page.texts(".timeline tbody tr")) < 100
    idle = page.run("return page.views[3].turns.moments.filter((it, number) => number && !it.events.length).length")
    assert idle == 0, idle


def changes_of_the_store_are_marked(page):
    page.example("linked_list", "schedule")
    page.run(
        "await page.views[3].deed((turns) => turns.until((moment) => moment.done[0]?.text === 'n.val = v', () => [1]))"
    )
    assert page.texts(".store .value.strong") == ["5"], page.texts(".store .value")
    assert page.run("return document.querySelectorAll('.store .changed').length") == 1


RING = """record N { int v; N next; N back; }
global N a; global N b; global N other;
thread t { N p; N q; int i;
  atomic { p = new N; a.next = p; p.back = a; i = 0;
    while (i < 5) { q = new N; p.next = q; q.back = p; p = q; i = i + 1; }
    p.next = a; a.back = p; b.next = b; } }
"""


def arrows_of_the_store_go_past_its_boxes(page):
    for text in (RING, *(page.examples[name] for name in ("linked_list", "walk", "lost_update"))):
        page.write(text)
        page.view("schedule")
        page.browser.click("#panel-schedule button", "until all have ended")
        page.replayed()
        found = page.probe("store")
        assert found["boxes"] and not found["overlaps"] and not found["through"], (text[:60], found)
        assert text != RING or found["arrows"] == 15, found


TESTS = [
    a_turn_shows_its_statement,
    who_waits_is_told,
    the_statement_of_a_procedure_is_lit,
    moments_come_to_what_the_program_says,
    the_slider_and_keys_go_back_and_forth,
    it_runs_until_a_thread_waits,
    it_stops_at_a_marked_line,
    turns_are_a_command,
    an_outcome_is_replayed,
    an_endless_thread_is_replayed_too,
    an_endless_run_is_given_up_with_a_word,
    changes_of_the_store_are_marked,
    arrows_of_the_store_go_past_its_boxes,
]
