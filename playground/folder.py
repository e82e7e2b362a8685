"""The folder that a server serves: the page's own files, the libraries that it uses, the documents, and what it is."""
import datetime
import hashlib
import html
import json
import os
import re
import shutil
import subprocess
import sys

HERE = os.path.dirname(os.path.abspath(__file__))
TOP = os.path.dirname(HERE)
PAGE = f"{HERE}/page"
EXAMPLES = f"{TOP}/crates/sect_cases/data/examples"
CODEMIRROR = "/usr/share/javascript/codemirror"
LIBRARIES = {
    **{f"{CODEMIRROR}/lib/codemirror.{kind}": "libjs-codemirror" for kind in ("js", "css")},
    **{
        f"{CODEMIRROR}/addon/{name}": "libjs-codemirror"
        for name in (
            "edit/matchbrackets.js",
            "edit/closebrackets.js",
            "selection/active-line.js",
            "comment/comment.js",
            "dialog/dialog.js",
            "dialog/dialog.css",
            "search/searchcursor.js",
            "search/search.js",
        )
    },
    "/usr/share/nodejs/dagre/dist/dagre.min.js": "node-dagre-layout",
}
# packages whose code stands in these files: dagre's has what it needs of both
WITHIN = ["node-graphlibrary", "node-lodash"]
DOCUMENT = """<!doctype html>
<html lang="en">
<head>
<meta charset="utf-8">
<meta name="viewport" content="width=device-width, initial-scale=1">
<meta http-equiv="Content-Security-Policy" content="default-src 'none'; style-src 'self'; img-src 'self'">
<title>{title}</title>
<link rel="icon" href="../icon.svg" type="image/svg+xml">
<link rel="stylesheet" href="../document.css">
</head>
<body>
<nav><a href="../index.html">The page</a></nav>
<main>
{body}</main>
</body>
</html>
"""


def text_of(path):
    with open(path, encoding="utf-8") as file:
        return file.read()


def write(path, text):
    with open(path, "w", encoding="utf-8") as file:
        file.write(text)


def clear(out):
    """Takes away what an earlier build has left, all but the module and what is said of it."""
    for name in os.listdir(out):
        path = f"{out}/{name}"
        if os.path.isdir(path):
            shutil.rmtree(path)
        elif name not in ("sectc.wasm", "about.json"):
            os.remove(path)


def copy_page(out):
    """The page's own files. All of its modules are asked for at once, and the program's beside them."""
    for name in os.listdir(PAGE):
        shutil.copy(f"{PAGE}/{name}", f"{out}/{name}")
    modules = sorted(
        name for name in os.listdir(PAGE) if name.endswith(".js") and name not in ("worker.js", "libc.js", "heap.js")
    )
    preloads = ['<link rel="preload" href="sectc.wasm" as="fetch" crossorigin>']
    preloads += [f'<link rel="modulepreload" href="{name}">' for name in modules]
    write(f"{out}/index.html", text_of(f"{PAGE}/index.html").replace("<!-- preloads -->", "\n".join(preloads)))


def copy_libraries(out):
    """The libraries, as Debian has them, and their licences."""
    os.makedirs(f"{out}/lib", exist_ok=True)
    for path, package in LIBRARIES.items():
        if not os.path.exists(path):
            sys.exit(f"{path} isn't there: it is of Debian's package {package}")
        shutil.copy(path, f"{out}/lib/{os.path.basename(path)}")
    packages = sorted({*LIBRARIES.values(), *WITHIN})
    licences = [f"{package}\n\n{text_of(f'/usr/share/doc/{package}/copyright')}" for package in packages]
    own = [text_of(f"{TOP}/LICENSE-{name}") for name in ("MIT", "APACHE")]
    licences.insert(0, "\n".join(["sectc, under either of two licences\n", *own]))
    write(f"{out}/lib/LICENCES.txt", ("\n" + "=" * 78 + "\n").join(licences))


def write_examples(out):
    """The texts of the examples by their names, without the comments that tell their locks: the page shows these."""
    names = sorted(name for name in os.listdir(EXAMPLES) if name.endswith(".sect"))
    found = {
        name[: -len(".sect")]: re.sub(r"^// section .*\n", "", text_of(f"{EXAMPLES}/{name}"), flags=re.M)
        for name in names
    }
    write(f"{out}/examples.json", json.dumps(found, indent=1))


def slug(heading):
    """The name of a heading in a link, as code hosts make it."""
    words = re.sub(r"<[^>]+>", "", html.unescape(heading)).lower()
    return re.sub(r"[^\w\- ]", "", words).replace(" ", "-")


def link(match):
    """A link between documents leads to the page that is made of it; one to a file that isn't here is no link."""
    target, label = match.group(1), match.group(2)
    if re.match(r"https?:|#", target):
        return match.group(0)
    path, _, part = target.partition("#")
    name = os.path.basename(path)
    is_here = (
        name.endswith(".md")
        and re.fullmatch(r"(docs/|\.\./)?[A-Z]+\.md", path)
        and os.path.exists(f"{TOP}/docs/{name}")
    )
    if path in ("playground/README.md", "../playground/README.md"):
        return f'<a href="../index.html">{label}</a>'
    if not is_here and path not in ("../README.md", "README.md"):
        return label
    return f'<a href="{name[:-3]}.html{"#" + part if part else ""}">{label}</a>'


def write_documents(out):
    """The documents as pages, with their pictures."""
    os.makedirs(f"{out}/docs", exist_ok=True)
    for name in os.listdir(f"{TOP}/docs"):
        if name.endswith(".png"):
            shutil.copy(f"{TOP}/docs/{name}", f"{out}/docs/{name}")
    paths = [f"{TOP}/README.md", *(f"{TOP}/docs/{name}" for name in os.listdir(f"{TOP}/docs") if name.endswith(".md"))]
    for path in paths:
        body = subprocess.run(["cmark-gfm", "-e", "table", path], capture_output=True, text=True, check=True).stdout
        body = re.sub(r"<(h[1-4])>(.*?)</h", lambda it: f'<{it[1]} id="{slug(it[2])}">{it[2]}</h', body)
        body = re.sub(r'<a href="([^"]*)">(.*?)</a>', link, body, flags=re.S)
        body = re.sub(r'(<img src=")(?:docs/)', r"\1", body).replace(
            "<table>", '<div class="wide" tabindex="0"><table>'
        )
        body = body.replace("</table>", "</table></div>").replace("<pre>", '<pre tabindex="0">')
        title = re.search(r"<h1[^>]*>(.*?)</h1>", body)[1]
        write(
            f"{out}/docs/{os.path.basename(path)[:-3]}.html",
            DOCUMENT.format(title=re.sub(r"<[^>]+>", "", title), body=body),
        )


def git(*words):
    done = subprocess.run(["git", "-C", TOP, *words], capture_output=True, text=True)
    return done.stdout.strip()


def write_about(out, is_proved, kit):
    """What the module is: whether its program was proved, the commit and the kit, the day, and the bytes' own name."""
    with open(f"{out}/sectc.wasm", "rb") as file:
        sha256 = hashlib.sha256(file.read()).hexdigest()
    origin = git("remote", "get-url", "origin")
    changed = " with changes" if git("status", "--porcelain", "--", "crates") else ""
    about = {
        "proved": is_proved,
        "commit": (git("rev-parse", "HEAD") or "unknown") + changed,
        "kit": kit,
        "sha256": sha256,
        "built": datetime.datetime.now(datetime.timezone.utc).date().isoformat(),
    }
    if re.match(r"https://", origin):
        about["repository"] = origin.removesuffix(".git")
    write(f"{out}/about.json", json.dumps(about, indent=1) + "\n")


def assemble(out):
    """All of the folder but the program's module and what is said of it."""
    clear(out)
    copy_page(out)
    copy_libraries(out)
    write_examples(out)
    write_documents(out)
