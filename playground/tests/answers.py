"""The module answers as the program does: as the cases of the gate say, and as the program outside of it."""
import json
import os
import re
import subprocess

from page import TOP

DATA = f"{TOP}/crates/sect_cases/data"
PROGRAMS = [f"{TOP}/crates/sectc/out/{name}" for name in ("sectc", "sectc-unproved")]
COMMANDS = [
    ["locks"],
    ["locks", "--k", "0"],
    ["explain"],
    ["conflicts"],
    ["compile"],
    ["compile", "--cert"],
    ["outcomes"],
    ["schedule", "0", "0", "0", "0", "0"],
    ["serial"],
    ["serial", "0", "1"],
    ["locks", "--k", "9"],
    ["schedule", "70"],
    ["check"],
    ["lint"],
    ["lint", "--k", "9"],
    ["--help"],
    ["inspect"],
    ["graph"],
    ["compile", "--format", "json"],
    ["schedule", "--chart", "0", "0", "0", "0", "0"],
]
LONGEST = 100_000


def text_of(path):
    with open(path, encoding="utf-8") as file:
        return file.read()


def cases():
    """Each case of the gate whose input is text of moderate length: its words, its input, and what it expects."""
    for name in sorted(os.listdir(DATA)):
        if not name.endswith(".case"):
            continue
        words = None
        for line in [*text_of(f"{DATA}/{name}").split("\n"), "$ end"]:
            if line.startswith("$ "):
                if words:
                    yield name, words, given, wanted, status
                words, given, wanted, status = line[2:].split(" ")[1:], "", [], 0
            elif line.startswith("<@ "):
                given += text_of(f"{DATA}/{line[3:]}")
            elif re.match(r"<[%*$] ", line):
                words = None
            elif line.startswith("<"):
                given += line[2:] + "\n"
            elif line.startswith(">"):
                wanted.append(line)
            elif line.startswith("= "):
                status = int(line[2:])


def is_as_wanted(lines, wanted):
    """Whether lines are what a case says: each in turn, some left out at `>..`."""
    at, may_skip = 0, False
    for want in wanted:
        if want == ">..":
            may_skip = True
            continue
        fits = (lambda line: want[3:] in line) if want.startswith(">~") else (lambda line: line == want[2:])
        while may_skip and at < len(lines) and not fits(lines[at]):
            at += 1
        if at >= len(lines) or not fits(lines[at]):
            return False
        at, may_skip = at + 1, False
    return may_skip or at == len(lines)


def answers_are_those_of_the_cases(page):
    tried = 0
    for name, words, given, wanted, status in cases():
        has_files = any(word.endswith(".sect") for word in words)
        if len(given) > LONGEST or has_files or any("'" in word or '"' in word for word in words):
            continue
        if words[:1] in (["run"], ["lsp"]):
            continue
        answer = page.run("return await page.sectc.ask(given[0], given[1])", words, given)
        lines = answer["text"].split("\n")[:-1]
        assert answer["status"] == status and is_as_wanted(lines, wanted), f"{name}: {words}: {answer['text'][:400]}"
        tried += 1
    assert tried > 200, tried


def answers_are_those_of_the_program(page):
    found = [path for path in PROGRAMS if os.path.exists(path)]
    if not found:
        print("not held against the program: tools/build or tools/build --unproved makes it")
        return
    for name, text in page.examples.items():
        for words in COMMANDS:
            there = page.run("return await page.sectc.ask(given[0], given[1])", words, text)
            given = {"input": text.encode(), "executable": found[0], "stdout": subprocess.PIPE}
            done = subprocess.run(["sectc", *words], **given)
            assert there == {"status": done.returncode, "text": done.stdout.decode()}, f"{name}: {words}: {there}"


def examples_have_titles(page):
    titles = page.run("const { TITLES } = await import('./titles.js'); return Object.keys(TITLES).sort()")
    assert titles == sorted(page.examples), titles
    shown = page.run(
        "return [...document.querySelectorAll('#examples option')].map((it) => it.value).filter(Boolean).sort()"
    )
    assert shown == sorted(page.examples), shown


def there_are_no_files(page):
    answer = page.run("return await page.sectc.ask(['locks', 'missing.sect'], '')")
    assert answer == {"status": 3, "text": ""}, answer
    answer = page.run("return await page.sectc.ask(['locks', '-'], given[0])", page.examples["account"])
    assert answer == {"status": 0, "text": "section 0: W a\n"}, answer


def integers_are_exact(page):
    page.write("record A { int v; }\nglobal A a;\nthread t { atomic { a.v = 9000000000000000001; } }\n")
    page.view("outcomes")
    assert "9000000000000000001" in page.text("#panel-outcomes .locals"), page.text("#panel-outcomes")


def about_is_told(page):
    about = page.run("return await (await fetch('about.json')).json()")
    told = page.text("footer")
    said = "the proved program" if about["proved"] else "the program without its proofs"
    assert said in told and about["commit"][:8] in told and about["sha256"][:12] in told, told
    digest = page.probe("digest")
    assert digest == about["sha256"], json.dumps(about)


def licences_are_named(page):
    told = page.run("return await (await fetch('lib/LICENCES.txt')).text()")
    for words in ("libjs-codemirror", "Marijn Haverbeke", "node-dagre-layout", "Chris Pettitt", "node-lodash", "sectc, under"):
        assert words in told, words
    assert told.count("Permission is hereby granted") >= 4, told.count("Permission is hereby granted")
    assert page.run("return document.querySelector('footer a[href=\"lib/LICENCES.txt\"]').textContent") == "Licences"


def the_repository_is_linked_where_it_is_known(page):
    known = page.run("return (await (await fetch('about.json')).json()).repository ?? null")
    links = page.run("return [...document.querySelectorAll('footer a')].map((it) => it.href)")
    assert known is None or known in links, (known, links)
    assert any(link.endswith("docs/README.html") for link in links), links


TESTS = [
    answers_are_those_of_the_cases,
    answers_are_those_of_the_program,
    examples_have_titles,
    there_are_no_files,
    integers_are_exact,
    about_is_told,
    licences_are_named,
    the_repository_is_linked_where_it_is_known,
]
