"""The text: what is typed, selected and undone, and what is said in it and below it."""

TWO_ON_A_LINE = "lost_update"
DEEP = """record N { int v; N n; }
global N a; global N b;
thread w { atomic { a.n = b; b.n = a; } }
thread t { N p; N q; N r; int v; atomic { p = a.n; q = p.n; r = q.n; v = r.v; } }
"""
GUARDED = """// record Node is protected by a gate
record Gate { int n; }
record Node { int val; Node next; }
global Gate gate; global Node head;
thread u { Node n; atomic { n = new Node; n.next = n; head.next = n; } }
thread t { Node p; int v;
  atomic { p = head.next; while (p != null) { v = p.val; p = p.next; } v = gate.n; } }
"""


def selection_is_seen(page):
    page.example("walk")
    page.browser.click("#code .CodeMirror-line")
    page.browser.keys("a", held="Control")
    found = page.probe("selection")
    assert found["words"] > 20 and found["least"] >= 4.5 and "0, 0, 0, 0" not in found["ink"], found
    assert found["letters"] == len(page.examples["walk"]), found


def sections_on_a_line_have_their_locks(page):
    page.example(TWO_ON_A_LINE)
    chips = page.probe("chips")
    assert [it["text"] for it in chips] == ["R a", "W a", "R a", "W a"], chips
    assert all(it["isSeen"] for it in chips), chips
    apart = [
        (one, other)
        for one in chips
        for other in chips
        if one is not other
        and one["x"] < other["right"]
        and other["x"] < one["right"]
        and one["y"] < other["bottom"]
        and other["y"] < one["bottom"]
    ]
    assert not apart, apart


def chip_tells_why(page):
    page.example("linked_list", "outcomes")
    page.browser.click(".inlay .lock", "R class 1")
    page.ready()
    page.rest(0.1)
    assert page.texts("[role=tab][aria-selected=true]") == ["Locks"]
    assert page.text(".chain h2") == "Why R class 1?", page.text(".chain h2")
    lit = "".join(page.texts("#code .lit")).replace(" ", "")
    assert lit.startswith("p=head.next") and "v=p.val" in lit, lit
    assert page.texts(".chain li .lock")[1] == "R p.next.next", page.texts(".chain li .lock")


def typing_is_undone(page):
    page.example("account")
    page.browser.click("#code .CodeMirror-line")
    page.browser.keys("x")
    page.browser.keys("z", held="Control")
    assert page.source() == page.examples["account"]


def brackets_are_closed_and_lines_indented(page):
    page.write("")
    page.browser.click("#code .CodeMirror-lines")
    page.browser.keys("thread t {", "Enter", "int x;", "Enter", "x = 1;")
    assert page.source() == "thread t {\n  int x;\n  x = 1;\n}", repr(page.source())


def text_is_searched(page):
    page.example("walk")
    page.browser.click("#code .CodeMirror-line")
    page.browser.keys("f", held="Control")
    page.browser.keys("p.next", "Enter")
    assert page.run("return page.editor.code.getSelection()") == "p.next"
    assert page.browser.complaints() == []
    page.browser.keys("Escape")


def escape_and_tab_leave_the_text(page):
    page.example("linked_list")
    page.browser.click("#code .CodeMirror-line")
    before = page.source()
    page.browser.keys("Escape", "Tab")
    assert page.run("return !document.querySelector('#code').contains(document.activeElement)") is True
    assert page.source() == before


def warnings_are_underlined(page):
    page.example("linked_list")
    assert (
        page.texts("#code .doubt") == ["v", "=", "p", ".", "val"]
        or "".join(page.texts("#code .doubt")).replace(" ", "") == "v=p.val"
    ), page.texts("#code .doubt")
    title = page.run("return document.querySelector('#code .doubt').title")
    assert title.startswith("section 0 locks all of class 1 for reading"), title
    assert page.run("const it = document.querySelector('#reports'); return it.scrollWidth <= it.clientWidth") is True
    page.browser.click("#reports .place")
    assert page.run("return page.editor.code.getSelection()") == "v = p.val"


def fault_is_underlined(page):
    page.write("record A { int v; }\nthread t { atomic { x = = 1; } }\n")
    assert page.texts("#code .fault") == ["="], page.texts("#code .fault")
    assert "unexpected token" in page.text("#reports") and "2:25" in page.text("#reports .place"), page.text("#reports")


def remedies_are_done(page):
    page.example("locks_everything")
    page.browser.click("#reports .remedy", "remove all")
    page.ready()
    assert "atomic {" in page.source() and page.texts(".inlay .lock") == ["R a", "W a"], page.source()
    page.write(GUARDED)
    page.browser.click("#reports .remedy", "protect Node by gate")
    page.ready()
    assert "record Node protected_by gate {" in page.source(), page.source()
    assert not [it for it in page.texts("#reports strong") if "locks all" in it], page.text("#reports")


def another_k_is_a_remedy(page):
    page.write(DEEP)
    page.browser.click("#reports .remedy", "use k 3")
    page.ready()
    assert page.run("return page.k") == "3" and "R a.n.n.n" in page.texts(".inlay .lock"), page.texts(".inlay .lock")


def refusals_are_words(page):
    for text, words in (
        ("record A { int v; }\nthread t { atomic { x = = 1; } }\n", "unexpected token"),
        ("thread " + "x" * 40 + " { }", "name"),
    ):
        page.write(text)
        for key in ("locks", "graph", "pairs", "schedule", "outcomes", "compare"):
            page.view(key)
            shown = page.text(f"#panel-{key}")
            assert "refused" not in shown and "no program yet" in shown, (key, shown)
        assert words in page.text("#reports"), page.text("#reports")
    page.browser.click("#panel-compare button", "go to the mistake")
    assert page.run("return page.editor.code.getSelection().length") > 0


def messages_speak_unicode(page):
    page.write("thread t { int x; x = = 1; } // \U0001f600 grüezi\n")
    assert "\\x" not in page.text("#reports") and page.texts("#code .fault") == ["="], page.text("#reports")
    page.write("// \U0001f600 grüezi\nrecord A { int v; }\nglobal A a;\nthread t { atomic { a.v = 1; } }\n")
    assert page.texts(".inlay .lock") == ["W a"], page.texts(".inlay .lock")


def text_is_never_markup(page):
    page.write("// <script>globalThis.bad = 1</script> \" ' <img src=x onerror='globalThis.bad = 1'>\nthread t { }\n")
    for key in ("locks", "graph", "pairs", "schedule", "outcomes", "compare"):
        page.view(key)
    assert page.run("return globalThis.bad === undefined && !document.querySelector('#code img')") is True


TESTS = [
    selection_is_seen,
    sections_on_a_line_have_their_locks,
    chip_tells_why,
    typing_is_undone,
    brackets_are_closed_and_lines_indented,
    text_is_searched,
    escape_and_tab_leave_the_text,
    warnings_are_underlined,
    fault_is_underlined,
    remedies_are_done,
    another_k_is_a_remedy,
    refusals_are_words,
    messages_speak_unicode,
    text_is_never_markup,
]
