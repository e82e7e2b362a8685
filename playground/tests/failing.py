"""What is said where the program can't be had."""
import os

from page import OUT


def said(page, wait=None):
    page.browser.until("!!document.querySelector('.unavailable')")
    return page.text(".unavailable")


def without(page, **server):
    """The page as it opens from a server that serves otherwise."""
    for name, value in server.items():
        setattr(page.server, name, value)
    page.browser.go(page.server.url.replace("index.html", "icon.svg"))
    page.browser.go(page.server.url)


def restored(test):
    """A test after which the server serves as before; the console may complain of what it didn't serve."""

    def tried(page):
        try:
            test(page)
        finally:
            page.server.missing, page.server.types = set(), {}
            page.browser.complaints()

    tried.__name__ = test.__name__
    tried.may_complain = True
    return tried


@restored
def a_missing_module_is_said(page):
    without(page, missing={"sectc.wasm", "examples.json", "about.json"})
    assert "playground/build" in said(page), said(page)


@restored
def a_folder_that_isnt_built_is_said(page):
    libraries = {f"lib/{name}" for name in os.listdir(f"{OUT}/lib")}
    without(page, missing={"sectc.wasm", "examples.json", "about.json", *libraries})
    assert "playground/build" in said(page), said(page)


@restored
def another_type_of_content_is_taken(page):
    without(page, types={".wasm": "text/plain"})
    page.ready()
    assert page.text("#count") == "2 outcomes of 12 states"


@restored
def an_old_browser_is_told_which_ones_can(page):
    script = page.browser.devtools(
        "Page.addScriptToEvaluateOnNewDocument", source="WebAssembly.validate = () => false;"
    )
    try:
        without(page)
        told = said(page)
        assert "Firefox from 134" in told and "133" in told, told
    finally:
        page.browser.devtools("Page.removeScriptToEvaluateOnNewDocument", identifier=script["identifier"])


@restored
def a_broken_module_is_said(page):
    without(page, types={".wasm": "text/plain"})
    page.ready()
    page.run("return 1")
    script = page.browser.devtools(
        "Page.addScriptToEvaluateOnNewDocument",
        source="WebAssembly.compileStreaming = async () => { throw new WebAssembly.CompileError('no'); };",
    )
    try:
        without(page, types={})
        assert "can't run" in said(page), said(page)
    finally:
        page.browser.devtools("Page.removeScriptToEvaluateOnNewDocument", identifier=script["identifier"])


def what_isnt_served_is_told(page):
    page.browser.go(f"file://{OUT}/index.html")
    page.rest(2)
    assert "isn't served over http" in " ".join(page.text("#starting").split()), page.text("#starting")
    page.browser.complaints()


what_isnt_served_is_told.may_complain = True


def without_scripts_it_is_said(page):
    text = page.run("return (await (await fetch('index.html')).text())")
    assert "<noscript>" in text and "needs JavaScript" in text


TESTS = [
    a_missing_module_is_said,
    a_folder_that_isnt_built_is_said,
    another_type_of_content_is_taken,
    an_old_browser_is_told_which_ones_can,
    a_broken_module_is_said,
    what_isnt_served_is_told,
    without_scripts_it_is_said,
]
