"""Pages of scripts: the frame, with the hash of its own script in the policy, the picture that `mdlview timeline` draws, with a column and a box for each
line, where the page looks for them, the text, and the data of each line, which are what mdlview says of the script up to that line. And the folder of
pages that `make pages` prints."""

import base64
import hashlib
import html
import json
import pathlib
import re
import shutil
import subprocess
import tempfile

PAGE = re.compile(
    r"<!DOCTYPE html>\n<html lang='en'>\n<head>\n(?P<head>.*?)<style>\n(?P<style>.*?)</style>\n</head>\n<body>\n(?P<before>.*?)"
    r"(?P<picture><svg .*?</svg>\n)</div>\n<main .*?<pre id='source'>\n(?P<source>[^<]*)</pre>\n<details .*?</details>\n</main>\n"
    r"<script type='application/json' id='data'>\n(?P<data>[^<]*?)\n</script>\n"
    r"<script>(?P<script>.*?)</script>\n</body>\n</html>\n",
    re.DOTALL,
)
QUESTIONS = ("locks", "waits", "why")

# Addresses that a page may have: the name of SVG, which browsers don't ask for.
NAMESPACE = "http://www.w3.org/2000/svg"


def answer(program, words, script):
    """Returns what the program prints of a script, or None if it fails."""
    ran = subprocess.run([program, *words], input=script.encode(), capture_output=True)
    return ran.stdout.decode() if (ran.returncode, ran.stderr) == (0, b"") else None


def policy_of(head):
    """Returns the policy in the head of a page."""
    return re.search(r"<meta http-equiv='Content-Security-Policy' content=\"(.*?)\">", head).group(1)


def wrong_frame(page):
    """Returns what is wrong with the parts of a page that are the same in all."""
    own = base64.b64encode(hashlib.sha256(page["script"].encode()).digest()).decode()
    wanted = f"default-src 'none'; base-uri 'none'; form-action 'none'; style-src 'unsafe-inline'; script-src 'sha256-{own}'"
    if policy_of(page["head"]) != wanted:
        yield f"the policy isn't {wanted}: has crates/mdl_page/src/frame.rt the hash of the script?"
    if set(re.findall(r"https?://[^\"' ]*", page.string)) != {NAMESPACE}:
        yield "another address"
    if any(name in page["script"] for name in ("innerHTML", "outerHTML", "insertAdjacent", "document.write", "eval(")):
        yield "texts that aren't set as texts"


def played(script):
    """Returns the numbers of the lines of a script that ask for something."""
    return [number for number, line in enumerate(script.splitlines(), 1) if line.split() and not line.startswith("#")]


def wrong_columns(script, page):
    """Returns the lines for which the page's script doesn't find a column with the line's number, and in it first the box of the line's own statement."""
    picture = page["picture"]
    guides = [int(x) for x in re.findall(r'<line class="guide" x1="(\d+)"', picture)]
    numbers = [int(number) for number in re.findall(r'<text class="number" x="\d+" y="16">(\d+)</text>', picture)]
    boxes = re.findall(r'<g><title>line (\d+), [^<]*</title>\n<rect class="(?:done|waiting|failed|refused)" x="(\d+)"', picture)
    firsts = [int(line) for line, x in boxes if int(x) in guides]
    if not numbers == firsts == played(script) or len(guides) != len(numbers):
        yield "columns", guides, numbers, firsts


def wrong_data(program, script, page):
    """Returns the lines of a page whose data aren't what mdlview says of the script up to that line."""
    data = json.loads(page["data"])
    if [it["line"] for it in data] != played(script):
        yield "lines", [it["line"] for it in data]
    for it in data:
        for question in QUESTIONS:
            printed = answer(program, [question, "--script", "--json", "--at", str(it["line"])], script)
            if printed is None or json.loads(printed) != it[question]:
                yield it["line"], question


def wrong_page(program, script):
    """Returns what is wrong with the page of a script."""
    printed = answer(program, ["timeline", "--script", "--html"], script)
    page = printed and PAGE.fullmatch(printed)
    if not page:
        yield "no page"
        return
    if page["picture"] != answer(program, ["timeline", "--script"], script):
        yield "another picture"
    if html.unescape(page["source"]) != script:
        yield "another text"
    yield from wrong_frame(page)
    yield from wrong_columns(script, page)
    yield from wrong_data(program, script, page)


def wrong_folder(program):
    """Returns what is wrong with the folder of pages: each example has its page there, and the index names all."""
    names = sorted(file.stem for file in pathlib.Path("examples").glob("*.replay"))
    with tempfile.TemporaryDirectory() as folder:
        ran = subprocess.run(["sh", "make/pages.sh", str(pathlib.Path(program).resolve()), folder], capture_output=True)
        if ran.returncode != 0:
            yield "make pages", ran.stderr.decode()
            return
        index = (pathlib.Path(folder) / "index.html").read_text()
        if re.findall(r'<li><a href="(\w+)\.html">', index) != names:
            yield "make pages", "names in the index"
        for name in names:
            printed = answer(program, ["timeline", "--script", "--html"], pathlib.Path(f"examples/{name}.replay").read_text())
            if (pathlib.Path(folder) / f"{name}.html").read_text() != printed:
                yield "make pages", name


# What the page of examples/alter_stops_a_table.replay shows of its line 8.
SHOWN = """Who waits for whom
who
waits for
because
session 2
X of TABLE test.orders
session 1 holds SR
session 3
SR of TABLE test.orders
session 2 waits before it for X
session 4
SW of TABLE test.orders
session 2 waits before it for X
If a session ended
End session 1
it holds SR of TABLE test.orders
at once session 2 gets X of TABLE test.orders
then session 3 gets SR of TABLE test.orders
then session 4 gets SW of TABLE test.orders
KILL QUERY 2
it holds SU of TABLE test.orders
at once session 3 gets SR of TABLE test.orders
at once session 4 gets SW of TABLE test.orders
Locks
lock
is held by
is awaited by
TABLE test.orders
session 1 SR; session 2 SU
session 2 X; session 3 SR; session 4 SW
SCHEMA test
session 2 IX

GLOBAL
sessions 2 and 4 IX

"""


def wrong_texts(program):
    """Returns what the page's script shows wrongly, where there is a node to run it."""
    if node := shutil.which("node"):
        page = answer(program, ["timeline", "--script", "--html"], pathlib.Path("examples/alter_stops_a_table.replay").read_text())
        ran = subprocess.run([node, "commands/page_texts.js", "8"], input=page.encode(), capture_output=True)
        if ran.stdout.decode() != SHOWN:
            yield "texts of the page", ran.stdout.decode(), ran.stderr.decode()


# A text with all that could be markup.
COMMENT = "# </pre><script>alert(1)</script> &amp; \"'\n1 SELECT t\n"


def wrong_pages(program, scripts):
    """Returns the scripts of these files whose pages are wrong, and an empty script, one with markup or the first lines of one, if its page is."""
    for file in scripts:
        yield from ((f"page of {file.name}", found) for found in wrong_page(program, file.read_text()))
    for script in ("", "# nothing\n", COMMENT):
        yield from ((f"page of {script!r}", found) for found in wrong_page(program, script))
    script = scripts[0].read_text()
    first, whole = (PAGE.fullmatch(answer(program, ["timeline", "--script", "--html", *words], script)) for words in (["--at", "5"], []))
    part = PAGE.fullmatch(answer(program, ["timeline", "--html", "--script"], "".join(script.splitlines(keepends=True)[:5])))
    if (first["picture"], first["data"], first["source"]) != (part["picture"], part["data"], whole["source"]):
        yield f"page of {scripts[0].name}", "up to line 5"
    yield from wrong_texts(program)
    yield from wrong_folder(program)
