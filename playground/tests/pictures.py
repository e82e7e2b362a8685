"""The pictures of the page in the documents."""
import os
import subprocess

from page import TOP

DOCS = f"{TOP}/docs"


def shot(page, name, width=1280, height=800):
    page.browser.window(width, height)
    page.run("page.editor.refresh(); document.activeElement.blur(); scrollTo(0, 0)")
    page.rest(0.5)
    path = f"{DOCS}/{name}.png"
    page.browser.shot(path)
    subprocess.run(
        ["pngquant", "--force", "--skip-if-larger", "--speed", "1", "--output", path, "128", path], check=False
    )
    subprocess.run(["optipng", "-quiet", "-o5", path], check=True)
    print(f"docs/{name}.png: {os.path.getsize(path) // 1024} KB")


def take(page):
    """A picture of each view that the documents show, at the widths of a desk, a large screen and a phone."""
    page.browser.window(1280, 800)
    page.open()
    page.browser.until("!!document.querySelector('.outcomes')")
    shot(page, "page-first")
    shot(page, "page-phone", 390, 844)
    page.browser.window(1280, 800)
    page.run("await page.tour.go(2); page.views[0].choose(0, 0)")
    shot(page, "page-locks")
    page.run("await page.openView('graph'); page.view.choose(0)")
    shot(page, "page-graph")
    page.run("await page.tour.go(1); await page.view.type('p p p p p q q q q')")
    shot(page, "page-schedule")
    page.run("await page.openView('outcomes')")
    page.browser.until("!!document.querySelector('.apart table')")
    page.browser.media(prefers_color_scheme="dark")
    shot(page, "page-outcomes", 1920, 1080)
    page.browser.media()
