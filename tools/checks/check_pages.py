"""Opens the pictures and the playground in headless Chromium, and tells what isn't as it should be.

    tools/checks/check-pages [--keep FOLDER] [--program PATH]

It makes the picture of each example, of explorations, a pod and a handover, and of great and hostile reports, and looks at each in sizes from a
phone's to a desk's: whether words overlap or are cut, whether clicks and keys alone lead along a call's trail, whether 50,000 events are drawn
without a wait. Then it serves the playground, and plays each example there, makes a policy and a script be refused, explores, stops explorations,
steps, has decisions explained, compares policies, checks reports, and goes by links.

    --keep FOLDER     keeps pictures of what it saw there
    --program PATH    the program that the playground runs, in place of ./broker

It takes Debian's chromium, chromium-driver and python3-selenium, and so Debian's own Python. Exit status: 0 where all is as it should be;
1 where it isn't; 3 where there is no browser, which it then says.
"""
import os
import re
import shutil
import socket
import subprocess
import sys
import tempfile
import time

from tools.commands import pods
from tools.commands.command_line.arguments import ToolParser
from tools.commands.command_line.top import TOP
from tools.commands.pages.documents import picture_page
from tools.commands.pages.made_reports import report_of, with_markup
from tools.commands.pages.served import playground
from tools.commands.pages.views import view_of

try:
    from tools.commands.pages.browser import Browser, Keys
except ImportError:
    Browser = None  # type: ignore[assignment, misc]
# selenium's package in Debian is for Debian's own Python
DEBIANS_PYTHON = "/usr/bin/python3"

PHONE, TABLET, DESK = (390, 844), (820, 1180), (1440, 900)
SIZES = {"small phone": (360, 640), "phone": PHONE, "tablet": TABLET, "small desk": (1180, 720), "desk": DESK, "great desk": (2200, 1300)}
# which of them are tried for each example, and the examples that are tried in all
IN_SHORT, IN_EACH_SIZE = ("small phone", "tablet", "desk"), ("container-boot", "limited-grant", "reused-pid")
EXAMPLES = sorted(name for name in os.listdir(f"{TOP}/examples") if os.path.isfile(f"{TOP}/examples/{name}/report.txt"))
EXPLORATIONS, HANDOVER = ("explore-caller-is-killed", "explore-mounts-on-one-directory", "explore-two-workers", "explore-counts-beyond-64-bits"), "worker-is-replaced-after-every-fourth-step"
ALL = "all"
# a program that isn't proved, and takes long for all orders of steps
SLOW = """#!/bin/sh
echo "broker: this build isn't proved nor optimised" >&2
[ "$5" != {all} ] || sleep 60
exec {program} "$@"
"""
# tables and schedules that stand outside of their outcome
OUTSIDE = """
return [...document.querySelectorAll('.outcome')].flatMap((outcome) => {
  const right = outcome.getBoundingClientRect().right;
  return [...outcome.querySelectorAll('table, .schedule, td')].filter((part) => part.getBoundingClientRect().right > right + 1).map((part) => `'${part.textContent.slice(0, 40)}' stands outside`);
}).slice(0, 5);
"""
GREAT = 4000
LONGEST_WAIT = 2.0
MARKUP = '<img src=x onerror="window.taken=1"><script>window.taken=1</script>'
POLICY = '{"config": {"security.syscalls.intercept.mknod": "true"}}\n'
CHOSEN = "document.querySelector('.row.chosen')?.id"


def text_of(path):
    with open(path, encoding="utf-8") as file:
        return file.read()


def picture_of(room, name, report, title="A report"):
    """The address of the picture of a report."""
    path = f"{room}/{name}.html"
    with open(path, "w", encoding="utf-8") as file:
        file.write(picture_page(view_of(report.encode()), title))
    return f"file://{path}"


def told(name, condition, what=""):
    """A fault with this name, unless the condition holds."""
    return [] if condition else [f"{name}{': ' if what else ''}{what}"]


# ---- pictures

def example_pictures(browser, room):
    """Each example in several sizes: nothing overlaps, is cut, or is missing."""
    for name in EXAMPLES:
        report = text_of(f"{TOP}/examples/{name}/report.txt")
        address = picture_of(room, name, report, name)
        yield from told(f"{name}: the picture's size", os.path.getsize(f"{room}/{name}.html") < 300_000)
        browser.size(*DESK)
        browser.open(address)
        events = int(report.split()[1])
        yield from told(f"{name}: marks", browser.script("return document.querySelectorAll('.mark').length") >= min(events, 25))
        lines = browser.script("return [...document.querySelectorAll('.words .row')].map((row) => row.title)")
        yield from told(f"{name}: rows", lines == report.split("\n")[1:len(lines) + 1], f"{lines[:3]}")
        for size in SIZES if name in IN_EACH_SIZE else IN_SHORT:
            width, height = SIZES[size]
            browser.size(width, height, dark=size in ("phone", "great desk"))
            yield from (f"{name}, {size}: {fault}" for fault in browser.layout_faults(width >= 1180))
            browser.shot(f"{name}-{size}".replace(" ", "-"))
        yield from (f"{name}: {complaint}" for complaint in browser.complaints())


def race(browser, room):
    """The picture that the README shows."""
    browser.size(*DESK)
    browser.open(picture_of(room, "race", text_of(f"{TOP}/examples/reused-pid/report.txt")))
    height = browser.script("const last = [...document.querySelectorAll('.words .row')].at(-1); return last.getBoundingClientRect().bottom - document.querySelector('.picture').getBoundingClientRect().top + 8")
    browser.shot_of(".picture", height, "race")
    yield from (f"the race: {fault}" for fault in browser.layout_faults(True))


def trails(browser, room):
    """Clicks lead from an event to its call, from the text to the picture, and to a lane or a rule alone."""
    browser.size(*DESK)
    browser.open(picture_of(room, "trail", text_of(f"{TOP}/examples/container-boot/report.txt")))
    browser.click("#row-17")
    trail = browser.text(".trail")
    yield from told("the trail of a call", all(text in trail for text in ("mknod by task 0", "lxd.mknod.1:3", "grant", '"/dev/null"', "0o20666", "returned 0", "makes /dev/null")), trail[:300])
    yield from told("the text beside it", browser.text(".line.chosen").endswith('17 w0 act mknod "/dev/null" chr 1:3 ok') and browser.script("return document.querySelectorAll('.line.in').length") > 3)
    browser.shot("trail-desk")
    y = browser.script("const row = document.querySelector('#row-20').getBoundingClientRect(); return row.top + row.height / 2 - document.querySelector('.canvas').getBoundingClientRect().top")
    browser.click_at(".canvas", 200, y)
    yield from told("a click into the picture", browser.script(f"return {CHOSEN}") == "row-20")
    browser.script("document.querySelector('.text').scrollTop = 0")
    browser.settled()
    browser.script("[...document.querySelectorAll('.line')].find((line) => line.textContent.includes('recv id=1')).click()")
    browser.click_at(".text", 100, 6 + 20 * 12 + 10)
    yield from told("a click into the text", browser.script(f"return {CHOSEN}") == "row-11", str(browser.script(f"return {CHOSEN}")))
    for where, way in [("the trail", "[...document.querySelectorAll('.trail button')].find((button) => button.textContent === 'Only rule lxd.mknod.1:3').click()"), ("the picture", "document.querySelector('.tag[data-rule=\"lxd.mknod.1:3\"]').click()")]:
        browser.script(way)
        browser.settled()
        yield from told(f"a rule alone, from {where}", browser.script("return document.querySelectorAll('.words .row').length") == 11)
        if where == "the trail":
            browser.click(".clear")
            yield from told("everything again", browser.script("return document.querySelectorAll('.words .row').length") > 20)
    browser.shot("one-rule-desk")
    browser.script("document.querySelector('.head.worker').click()")
    browser.settled()
    yield from told("a lane alone", "worker 0" in browser.script("return document.querySelector('.only').selectedOptions[0].textContent"))
    browser.keys(Keys.ESCAPE)
    browser.click(".find")
    browser.keys("fuse2fs", Keys.ENTER)
    yield from told("a search", browser.script(f"return {CHOSEN}") == "row-65" and browser.text(".found") == "1 of 1", browser.text(".found"))
    yield from (f"trails: {complaint}" for complaint in browser.complaints())


def keys_alone(browser, room):
    """What the mouse does can be done by keys."""
    browser.size(*DESK)
    browser.open(picture_of(room, "keys", text_of(f"{TOP}/examples/reused-pid/report.txt")))
    yield from told("keys: the picture has the focus", browser.tab_to("document.activeElement.matches('.picture')"))
    for keys, due in [((Keys.DOWN,), 0), ((Keys.DOWN, Keys.DOWN), 2), (("n",), 3), ((Keys.RIGHT,), 4), ((Keys.RIGHT,), 6), ((Keys.LEFT,), 4), ((Keys.END,), 14), ((Keys.UP,), 13), ((Keys.HOME,), 0), (("p",), 3)]:
        browser.keys(*keys)
        chosen = browser.script(f"return {CHOSEN}")
        yield from told(f"keys: {[key.encode('unicode_escape').decode() for key in keys]} leads to {chosen}", chosen == f"row-{due}")
        yield from told("keys: a reader is told what is chosen", browser.script(f"return document.querySelector('.picture').getAttribute('aria-activedescendant') === {CHOSEN} && document.getElementById({CHOSEN}) !== null"))
    browser.keys("o")
    yield from told("keys: one lane", browser.script("return document.querySelectorAll('.words .row').length") < 15)
    browser.keys(Keys.ESCAPE, "/", "zero", Keys.ENTER)
    yield from told("keys: a search", browser.script(f"return {CHOSEN}") == "row-9")
    browser.keys(Keys.ESCAPE)
    yield from told("keys: nothing is chosen", browser.script(f"return {CHOSEN}") is None)
    browser.keys(Keys.DOWN, Keys.ENTER)
    yield from told("keys: into the trail", browser.script("return document.activeElement.matches('.trail')"))
    yield from told("keys: to the report", browser.tab_to("document.activeElement.matches('.text')"))
    browser.keys(Keys.DOWN)
    yield from told("keys: along the report", browser.script(f"return {CHOSEN}") == "row-1")
    yield from (f"keys: {complaint}" for complaint in browser.complaints())


def great_reports(browser, room):
    """200 events at a glance, and 50,000 without a wait."""
    browser.size(*DESK)
    browser.open(picture_of(room, "glance", report_of(15)))
    browser.keys("0")
    yield from told("200 events at a glance", browser.script("const all = document.querySelector('.picture'); return document.querySelectorAll('.mark').length >= 197 && all.scrollHeight <= all.clientHeight + 1"))
    yield from (f"200 events: {fault}" for fault in browser.layout_faults(False))
    browser.shot("glance-desk")
    browser.open(picture_of(room, "great", report_of(GREAT)))
    waits = {"opening it": browser.worked()}
    for name, script in {
        "choosing": "picture.choose(26000)", "going to the end": "picture.choose(picture.model.count - 1)", "scrolling": "picture.parts.picture.scrollTop = 400000",
        "all rows": "picture.do('all')", "greater": "picture.do('greater')", "one rule": "picture.only({ kind: 'rule', value: 'lxd.sysinfo' })", "everything": "picture.only(null)",
        "searching": "picture.parts.find.value = 'EPERM'; picture.search(true)",
    }.items():
        waits[name] = browser.seconds(script)
        nodes = browser.script("return document.querySelectorAll('.canvas *').length")
        yield from told(f"50,000 events, {name}: {nodes} elements are drawn", nodes < 8000)
    browser.shot("great-desk")
    print("check-pages: 50,000 events: " + ", ".join(f"{name} {seconds:.2f} s" for name, seconds in waits.items()))
    yield from (f"50,000 events: {name} takes {seconds:.1f} s" for name, seconds in waits.items() if seconds > LONGEST_WAIT)
    yield from (f"great reports: {complaint}" for complaint in browser.complaints())


def markup(browser, room):
    """Texts of a report are shown as texts."""
    browser.size(*DESK)
    browser.open(picture_of(room, "markup", with_markup(MARKUP, "<script>window.taken=1</script>"), f"</title></script>{MARKUP}"))
    browser.keys(Keys.HOME, "n")
    yield from told("markup: it is shown as text", "<script>window.taken=1</script>" in browser.text(".trail") and "onerror" in browser.text(".words"))
    yield from told("markup: nothing of it counts", browser.script("return window.taken === undefined && document.querySelector('img') === null && document.title.includes('<img')"))
    yield from (f"markup: {complaint}" for complaint in browser.complaints())


def drawn(words, text):
    """How tools/commands/picture ends with these words and this text."""
    return subprocess.run([f"{TOP}/tools/commands/picture", *words], input=text.encode(), capture_output=True)


def tool(_, room):
    """tools/commands/picture makes the same page of a file and of its input, and refuses a text that is no report with its line."""
    path = f"{TOP}/examples/first/report.txt"
    report = text_of(path)
    picture_of(room, "same", report, "first/report.txt")
    yield from told("a picture of a file", drawn([path], "").stdout.decode() == text_of(f"{room}/same.html"))
    yield from told("a picture of the input", drawn(["-o", f"{room}/input.html", "--title", "first/report.txt"], report).returncode == 0 and text_of(f"{room}/input.html") == text_of(f"{room}/same.html"))
    yield from told("a file that isn't there", drawn([f"{room}/nothing"], "").returncode == 2)
    for line, text in [(1, ""), (1, "hello\n"), (5, report.replace("recv id=1", "receive id=1")), (19, report.replace("calls 1", "calls 2")), (21, report.replace("events=", "event=")), (22, f"{report}\n"), (21, report[:-1])]:
        ended = drawn(["-o", f"{room}/none.html"], text)
        yield from told(f"a text that is no report, at line {line}", ended.returncode == 1 and f": line {line}: ".encode() in ended.stderr, ended.stderr.decode())


def judged(room, name, script):
    """The files of a history of tests/judged/defined: its report, and what the judge says of it."""
    folder, report, said = f"{TOP}/tests/judged/defined", f"{room}/{name}-report.txt", f"{room}/{name}-judged.txt"
    words = ["--report", report, f"{folder}/policy.json", f"{folder}/scripts/{script}.txt", f"{folder}/sessions/{name}.txt"]
    with open(said, "wb") as file:
        subprocess.run([f"{TOP}/tools/references/reference-judge", *words], stdin=subprocess.DEVNULL, stdout=file)
    return report, said


def broken_clauses(browser, room):
    """The picture of a history that was judged has the clause at its event, and marks what this rests on, and what has brought it about."""
    report, said = judged(room, "reads_another", "reused")
    yield from told("a judged history", drawn(["--judged", said, "-o", f"{room}/judged.html", report], "").returncode == 0)
    browser.size(*DESK)
    browser.open(f"file://{room}/judged.html")
    yield from told("judged: it opens at the event", browser.script(f"return {CHOSEN}") == "row-12")
    yield from told("judged: its panel", browser.text(".trail").startswith("Broken: harm, other-memory"), browser.text(".trail")[:100])
    marked = browser.script("return ['broken', 'rests', 'in'].map((kind) => [...document.querySelectorAll(`.row.${kind}`)].map((row) => row.id.slice(4)).join(' '))")
    # (the signal, the wait and the start by which another task has got the PID)
    yield from told("judged: the rows that are marked", marked == ["12", "11", "3 4 5 6 7 8 9 10 11 12"], str(marked))
    yield from (f"judged: {fault}" for fault in browser.layout_faults(True))
    browser.shot("judged-desk")
    still = drawn(["--still", "--judged", said, report], "").stdout
    yield from told("a still picture", still.startswith(b"<svg ") and b"harm: other-memory" in still)
    other, _ = judged(room, "reads_nothing", "one_node")
    yield from told("the judge's text on another history", drawn(["--judged", said, other], "").returncode == 1)
    yield from (f"judged: {complaint}" for complaint in browser.complaints())


def words_of_copies(_, room):
    """What is read is shown up to its zero, and a descriptor is put in for a path."""
    first = text_of(f"{TOP}/examples/first/report.txt")
    stale = view_of(first.replace(" 2f6e756c6c\n", " 2f6e756c6c006f6c64\n").encode())["scene"]["words"]
    yield from told("bytes behind a zero", 'reads "/null" at 0x10000, and 3 bytes after its zero' in stale, str(stale))
    report, _ = judged(room, "puts_and_sends", "one_file")
    scene = view_of(text_of(report).encode())["scene"]
    yield from told("the path of a descriptor", "puts its descriptor 5 into the caller, without an answer, as /a" in scene["words"], str(scene["words"]))
    yield from told("a path among the arguments", ["path", "65789", '0x100fd, "/a"'] in scene["calls"][0][7], str(scene["calls"]))


# ---- the playground

def answered(browser):
    return browser.wait("document.querySelector('#answer').textContent.length > 3 && !document.body.classList.contains('busy')")


def put(browser, editor, text):
    """Puts a text into an editor as a paste does."""
    browser.script("const field = document.querySelector(`#${arguments[0]} textarea`); field.value = arguments[1]; field.dispatchEvent(new Event('input'))", editor, text)


def press(browser, form):
    browser.script("document.querySelector(`[data-form='${arguments[0]}']`).click()", form)
    return answered(browser)


def played_examples(browser, address):
    """Each example is played, and its report is the one that is kept beside it."""
    browser.size(*DESK)
    browser.open(address)
    yield from told("the page doesn't begin", browser.wait("playground !== null && playground.editors.script.text.length > 0"))
    for name in EXAMPLES:
        browser.script("const list = document.querySelector('#example'); list.value = arguments[0]; list.dispatchEvent(new Event('change'))", name)
        yield from told(f"{name}: no answer", press(browser, "play"))
        yield from told(f"{name}: another report is played", browser.script("return playground.report") == text_of(f"{TOP}/examples/{name}/report.txt"), browser.text("#answer"))
        yield from told(f"{name}: it isn't drawn", browser.script("return document.querySelectorAll('#result .mark').length") > 10)
    browser.shot("playground-desk")
    yield from told("Explore is offered only where the program has it", browser.script("return [...document.querySelectorAll('[data-form]')].every((button) => button.closest('[hidden]') !== null || playground.about.forms.includes(button.dataset.form))"))
    yield from (f"the playground: {complaint}" for complaint in browser.complaints())


def refusals(browser, address):
    """What the program refuses is marked where it stands."""
    browser.size(*DESK)
    browser.open(address)
    browser.wait("playground !== null && playground.editors.script.text.length > 0")
    for name, policy, line, key in [
        ("a value", '{\n  "config": {"security.syscalls.intercept.mknod": "maybe"}\n}\n', "2", '"security.syscalls.intercept.mknod"'),
        ("a rule named <script>", '{"rules": [\n {"name": "<script>window.taken=1</script>", "call": "mknod", "then": "pass"}]}', "2", '"name"'),
        ("an unknown key", f'{{"config": {{}},\n\n "{"<b>"}": 1}}', "3", '"<b>"'),
        ("no JSON", '{"config":\n  {,}}', "2", ","),
    ]:
        put(browser, "policy", policy)
        yield from told(f"{name}: no answer", press(browser, "play"))
        yield from told(f"{name} is marked", browser.text("#policy .gutter .fault") == line and browser.text("#policy mark") == key, browser.text("#answer"))
        if name == "a value":
            browser.shot("refused-policy-desk")
    yield from told("markup counts", browser.script("return window.taken === undefined && document.querySelector('#answer script, #answer b') === null"))
    put(browser, "policy", POLICY)
    put(browser, "script", "notify mknod\n\nprog main\npokee 0x10000 \"x\"\nend\n")
    press(browser, "play")
    yield from told("a script's line is marked", browser.text("#script .gutter .fault") == "4" and "unknown word" in browser.text("#answer"), browser.text("#answer"))
    browser.script("[...document.querySelectorAll('#answer button')][0].click()")
    yield from told("the way to the line", browser.script("const field = document.querySelector('#script textarea'); return document.activeElement === field && field.value.slice(field.selectionStart).startsWith('pokee')"))
    browser.shot("refused-script-desk")
    yield from (f"refusals: {complaint}" for complaint in browser.complaints())


def runs_and_checks(browser, address):
    """A run's report is drawn, and checked against the policy and script; with another policy its line is marked."""
    browser.size(*DESK)
    browser.open(address)
    browser.wait("playground !== null && playground.editors.script.text.length > 0")
    browser.script("playground.example('first')")
    press(browser, "run")
    yield from told("a run", browser.text("#answer").startswith("Run: "), browser.text("#answer"))
    press(browser, "audit-check")
    yield from told("a report that is one", "Yes: " in browser.text("#answer") and "rule=lxd.mknod.1:3" in browser.text("#answer"), browser.text("#answer"))
    browser.shot("checked-desk")
    press(browser, "play")
    put(browser, "policy", "{}")
    press(browser, "audit-check")
    yield from told("a report of another policy", "Line 11 is the first" in browser.text("#answer") and browser.text("#result .line.fault .at") == "11", browser.text("#answer"))
    browser.shot("not-of-this-policy-desk")
    browser.script("document.querySelector('#open').click()")
    browser.keys("journal 1\nnothing", Keys.TAB, Keys.TAB, Keys.ENTER)
    yield from told("a text that is no report", answered(browser) and "line 2" in browser.text("#answer"), browser.text("#answer"))
    browser.script("document.querySelector('#pasted').value = arguments[0]; document.querySelector('#opened').returnValue = ''; document.querySelector('#open').click()", report_of(3))
    browser.click("#opened .main")
    yield from told("a report that is opened", browser.wait("document.querySelector('#answer').textContent.startsWith('Opened')"), browser.text("#answer"))
    yield from (f"runs and checks: {complaint}" for complaint in browser.complaints())


def links(browser, address):
    """The address keeps the case, and a broken one is told."""
    browser.size(*DESK)
    browser.open(address)
    browser.wait("playground !== null && playground.editors.script.text.length > 0")
    put(browser, "policy", '{"version": 2}\n')
    put(browser, "script", "# é ☃ 𝄞\nprog main\nend\n")
    browser.wait("location.hash === playground.hash && playground.editors.policy.text.includes('version') && location.hash.length > 20")
    browser.script("return playground.keep()")
    kept = browser.script("return location.href")
    browser.open(kept)
    browser.wait("playground !== null && playground.editors.script.text.length > 0")
    yield from told("a link keeps the case", browser.script("return [playground.editors.policy.text, playground.editors.script.text]") == ['{"version": 2}\n', "# é ☃ 𝄞\nprog main\nend\n"])
    for broken in (f"{address}#case=AAAA", kept[:-7]):
        browser.open(broken)
        yield from told("a broken link is told", browser.wait("document.querySelector('#answer').textContent.includes('cut')"))
    yield from (f"links: {complaint}" for complaint in browser.complaints())


def saved(browser, address, room):
    """The report and the picture are saved, and the picture opens alone."""
    browser.driver.execute_cdp_cmd("Page.setDownloadBehavior", {"behavior": "allow", "downloadPath": room})
    browser.open(address)
    browser.wait("playground !== null && playground.editors.script.text.length > 0")
    press(browser, "play")
    for button, name in [("#save-report", "report.txt"), ("#save-picture", "picture.html")]:
        browser.script("document.querySelector(arguments[0]).click()", button)
        until = time.monotonic() + 10
        while not os.path.exists(f"{room}/{name}") and time.monotonic() < until:
            time.sleep(0.05)
        yield from told(f"{name} is saved", os.path.exists(f"{room}/{name}"))
    browser.open(f"file://{room}/picture.html")
    yield from told("the saved picture opens", browser.script("return document.querySelectorAll('.mark').length") > 10)
    yield from (f"saving: {complaint}" for complaint in browser.complaints())


def page_by_keys(browser, address):
    """The page is used by keys alone: an example is chosen and played, and its picture looked at."""
    browser.size(*DESK)
    browser.open(address)
    browser.wait("playground !== null && playground.editors.script.text.length > 0")
    yield from told("keys: to the examples", browser.tab_to("document.activeElement.id === 'example'"))
    browser.keys("first")
    yield from told("keys: an example is chosen", browser.script("return document.querySelector('#example').value") == "first")
    yield from told("keys: to Play", browser.tab_to("document.activeElement.dataset.form === 'play'"))
    browser.keys(Keys.ENTER)
    yield from told("keys: it is played", answered(browser) and browser.script("return playground.report?.includes('lxd.mknod.1:3')"))
    yield from told("keys: to the picture", browser.tab_to("document.activeElement.matches('.picture')"))
    browser.keys(Keys.DOWN, "n")
    yield from told("keys: to a call", browser.script(f"return {CHOSEN}") == "row-2")
    browser.script("document.querySelector('#script textarea').focus()")
    browser.chord(Keys.CONTROL, Keys.ENTER)
    yield from told("keys: Ctrl+Enter plays", answered(browser) and browser.script("return playground.chosen === undefined && document.querySelector('.row.chosen') === null"))
    yield from (f"keys: {complaint}" for complaint in browser.complaints())


def empty_page(browser):
    """Before anything is played the page has no more than it shows, and what is said of a trial build is whole in 400 pixels."""
    browser.size(*DESK)
    yield from told("the empty page doesn't scroll", browser.script("return document.documentElement.scrollHeight <= innerHeight"))
    browser.size(400, 800)
    browser.script("playground.tellProgram(arguments[0])", {"program": "a trial build, which isn't proved", "slow": True})
    whole = ("const it = document.querySelector('#program'); return it.scrollWidth <= it.clientWidth && it.scrollHeight <= it.clientHeight + 1 && "
             "document.documentElement.scrollWidth <= innerWidth && it.textContent.endsWith('the proved program')")
    yield from told("what is said of a trial build is whole", browser.script(whole))
    browser.script("playground.tellProgram(playground.about)")


def page_sizes(browser, address):
    """The page fits from a phone's size to a desk's."""
    browser.open(address)
    browser.wait("playground !== null && playground.editors.script.text.length > 0")
    yield from empty_page(browser)
    press(browser, "play")
    for size, (width, height) in SIZES.items():
        browser.size(width, height, dark=size in ("phone", "tablet"))
        yield from (f"the page, {size}: {fault}" for fault in browser.layout_faults(width >= 1440))
        browser.script("scrollTo(0, 0)")
        browser.shot(f"page-{size.replace(' ', '-')}")
        browser.script("document.querySelector('#result').scrollIntoView()")
        browser.shot(f"page-{size.replace(' ', '-')}-below")


def outcomes(browser, room):
    """The picture of an exploration has each outcome, with its calls and its schedule, in all sizes."""
    for name in EXPLORATIONS:
        printed = text_of(f"{TOP}/cases/{name}/stdout")
        browser.size(*DESK)
        browser.open(picture_of(room, name, printed, name))
        schedules = browser.script("return [...document.querySelectorAll('.outcome .schedule pre')].map((lines) => lines.textContent)")
        yield from told(f"{name}: the schedules", [it.strip() for it in re.findall(r"schedule\n[^e]*end\n", printed)] == schedules, f"{schedules[:1]}")
        turns = sum(len(it.split("\n")) - 2 for it in schedules)
        yield from told(f"{name}: a bar for each turn", browser.script("return document.querySelectorAll('.outcome rect.turn').length") == turns)
        orders = browser.script("return [...document.querySelectorAll('.outcome .orders')].map((it) => it.textContent.split(' ')[0].replaceAll(',', ''))")
        yield from told(f"{name}: how many orders each has", orders == re.findall(r"^outcome \d+ histories=(\d+)", printed, re.M), str(orders))
        yield from told(f"{name}: each call", browser.script("return document.querySelectorAll('.call-row').length") == len(re.findall(r"^t\S+ \d+ ", printed, re.M)))
        for size, (width, height) in SIZES.items():
            browser.size(width, height, dark=size in ("phone", "great desk"))
            yield from (f"{name}, {size}: {fault}" for fault in [*browser.layout_faults(False), *browser.script(OUTSIDE)])
            browser.shot(f"{name}-{size}".replace(" ", "-"))
        yield from (f"{name}: {complaint}" for complaint in browser.complaints())


def containers(browser, room):
    """The picture of a pod has that of each container."""
    reports = [text_of(f"{TOP}/examples/{name}/report.txt") for name in ("reused-pid", "container-boot")]
    printed = "".join(f"container {number}\n{report}" for number, report in enumerate(reports)) + pods.last_line([it.encode() for it in reports]).decode()
    browser.size(*DESK)
    browser.open(picture_of(room, "pod", printed))
    for number, report in enumerate(reports):
        browser.script("document.querySelectorAll('.containers button')[arguments[0]].click()", number)
        browser.settled()
        lines = browser.script("return [...document.querySelectorAll('.words .row')].map((row) => row.title)")
        yield from told(f"container {number}: rows", lines == report.split("\n")[1:len(lines) + 1], f"{lines[:3]}")
    for size in IN_SHORT:
        browser.size(*SIZES[size])
        yield from (f"a pod, {size}: {fault}" for fault in browser.layout_faults(False))
        browser.shot(f"pod-{size}".replace(" ", "-"))
    yield from (f"a pod: {complaint}" for complaint in browser.complaints())


def replacements(browser, room):
    """The picture of a handover tells where workers were replaced."""
    printed = text_of(f"{TOP}/cases/{HANDOVER}/stdout")
    browser.size(*DESK)
    browser.open(picture_of(room, "handover", printed))
    places = re.findall(r"^ledger (\d+) ", printed, re.M)
    marked = browser.script("return [...document.querySelectorAll('.row')].filter((row) => row.textContent.includes('is replaced')).map((row) => row.id.slice(4))")
    yield from told("a handover: the replaced workers", places != [] and marked == places, f"{marked}, and {places}")
    browser.shot("handover-desk")
    yield from (f"a handover: {complaint}" for complaint in browser.complaints())


def explored_page(browser, address):
    """An exploration ends by itself, at its limit, or where it is stopped; each outcome can be played, and led back to."""
    browser.size(*DESK)
    browser.open(address)
    browser.wait("playground !== null && playground.editors.script.text.length > 0")
    printed = text_of(f"{TOP}/cases/{EXPLORATIONS[0]}/stdout")
    for editor, name in (("policy", "policy.json"), ("script", "script.txt")):
        put(browser, editor, text_of(f"{TOP}/cases/{EXPLORATIONS[0]}/{name}"))
    press(browser, "explore")
    yield from told("all orders are explored where no bound is chosen", "whole=yes" in browser.text("#answer"), browser.text("#answer"))
    choose_delays(browser, "2")
    press(browser, "explore")
    yield from told("an exploration within a bound", "whole=bound" in browser.text("#answer") and "2 delays" in browser.text(".explored"), browser.text("#answer"))
    choose_delays(browser, ALL)
    press(browser, "explore")
    yield from told("an exploration of all orders", browser.script("return playground.output") == printed and "whole=yes" in browser.text("#answer"), browser.text("#answer"))
    yield from (f"an exploration: {fault}" for fault in browser.layout_faults(False))
    browser.shot("explored-desk")
    browser.script("document.querySelectorAll('.outcome')[2].querySelector('button').click()")
    yield from told("an outcome is played", browser.wait("document.querySelector('#answer').textContent.startsWith('Outcome 3 played')") and "reply=lost" in browser.script("return playground.report"), browser.text("#answer"))
    yield from told("its schedule stands in the script", browser.script("return playground.editors.script.text").endswith("schedule\nt 0 2\nt 0.1 1\nw 0 7\nt 0 2\nt 0.1 1\nw 0 2\nend\n"))
    browser.script("[...document.querySelectorAll('#answer button')].at(-1).click()")
    yield from told("the way back to the outcomes", browser.script("return document.querySelectorAll('.outcome').length") == 5)
    yield from (f"explorations: {complaint}" for complaint in browser.complaints())


def stepped_page(browser, address):
    """Whoever is able to step has a button, and each click is a step: the journal grows. A step is taken back, and the order becomes the script's schedule."""
    for size, dark in (("desk", False), ("phone", True)):
        browser.size(*SIZES[size], dark=dark)
        browser.open(address)
        browser.wait("playground !== null && playground.editors.script.text.length > 0")
        browser.script("playground.example('limited-grant')")
        browser.click("[data-form=step]")
        yield from told(f"steps, {size}: the first task is able", stepped_to(browser, 0) and actors(browser) == ["t0"], str(actors(browser)))
        for at, (actor, able) in enumerate(STEPS, 1):
            browser.click(f"#stepping [data-actor='{actor}']")
            yield from told(f"steps, {size}: step {at}", stepped_to(browser, at) and actors(browser) == able and rows(browser) == at + 1, f"{actors(browser)}, {rows(browser)} rows: {browser.text('#stepping')}")
        yield from told(f"steps, {size}: what was done last", "task 0.1 calls mknod" in browser.text("#stepping p") and browser.script(f"return {CHOSEN}") == "row-5" and "isn't over" in browser.text(".trail"), browser.text("#stepping"))
        yield from (f"steps, {size}: {fault}" for fault in browser.layout_faults(False))
        browser.script("document.querySelector('#stepping').scrollIntoView()")
        browser.shot(f"steps-{size}")
        browser.script("[...document.querySelectorAll('#stepping .small')].find((it) => it.textContent === 'Take back').click()")
        yield from told(f"steps, {size}: one is taken back", stepped_to(browser, 4) and actors(browser) == STEPS[3][1] and rows(browser) == 5, str(actors(browser)))
        browser.script("[...document.querySelectorAll('#stepping .small')].find((it) => it.textContent.startsWith('Put this order')).click()")
        yield from told(f"steps, {size}: the order in the script", browser.script("return playground.editors.script.text").endswith("\nschedule\nt 0 2\nt 0.1 1\nt 0 1\nend\n") and browser.script("return document.querySelector('#stepping').hidden"))
        browser.click("[data-form=step]")
        yield from told(f"steps, {size}: begun again", stepped_to(browser, 0), browser.text("#stepping"))
        put(browser, "policy", "{]\n")
        yield from told(f"steps, {size}: over where a text changes", browser.script("return document.querySelector('#stepping').hidden"))
        browser.click("[data-form=step]")
        yield from told(f"steps, {size}: a policy that is refused", answered(browser) and "not JSON" in browser.text("#answer") and browser.script("return document.querySelector('#stepping').hidden"), browser.text("#answer"))
        yield from (f"steps, {size}: {complaint}" for complaint in browser.complaints())


# who steps in limited-grant, and who is able then
STEPS = (("t0", ["t0"]), ("t0", ["t0", "t0.1"]), ("t0.1", ["t0", "t0.1"]), ("t0", ["t0.1", "w0"]), ("t0.1", ["w0"]))


def stepped_to(browser, count):
    return browser.wait(f"!document.body.classList.contains('busy') && !document.querySelector('#stepping').hidden && playground.stepping.turns.length === {count}")


def actors(browser):
    return browser.script("return [...document.querySelectorAll('#stepping [data-actor]')].map((it) => it.dataset.actor)")


def rows(browser):
    return browser.script("return playground.picture.model.count")


def explained_page(browser, address):
    """A click on a call and on Explain tells which rule decides it, and what the call misses of each before; also where the policy has changed since."""
    for size, dark in (("desk", True), ("phone", False)):
        browser.size(*SIZES[size], dark=dark)
        browser.open(address)
        browser.wait("playground !== null && playground.editors.script.text.length > 0")
        browser.script("playground.example('container-boot')")
        press(browser, "play")
        browser.script("playground.look(); playground.picture.bring(playground.picture.model.rowOf(17))")
        browser.settled()
        browser.click("#row-17")
        if size == "phone":
            browser.script("playground.picture.tab('trail')")
        browser.script("[...document.querySelectorAll('.trail button')].find((it) => it.textContent === 'Explain').click()")
        yield from told(f"explained, {size}", browser.wait("document.querySelector('.why') !== null"), browser.text("#answer"))
        why = browser.text(".why")
        missed = browser.script("return [...document.querySelectorAll('.why > .rules li')].map((it) => it.textContent)")
        yield from told(f"explained, {size}: the rule and those before it", 'mknod "/dev/null" chr 1:3' in why and "lxd.mknod.1:3 is the next one, and decides: grant." in why and missed[:1] == ["lxd.mknod.0:0 misses dev: chr 1:3 is not 0:0"] and len(missed) == 3, why)
        browser.script("document.querySelector('.why').scrollIntoView()")
        browser.shot(f"explained-{size}")
        yield from (f"explained, {size}: {fault}" for fault in browser.layout_faults(False))
        yield from told(f"explained, {size}: nothing stands outside", browser.script("const right = document.querySelector('.trail').getBoundingClientRect().right; return [...document.querySelectorAll('.why *')].every((it) => it.getBoundingClientRect().right <= right + 1)"))
        browser.script("playground.picture.choose(20)")
        yield from told(f"explained, {size}: it stays for this call", browser.script("return document.querySelector('.why') !== null"))
        put(browser, "policy", '{"rules": [{"name": "none", "call": "mknod", "then": {"deny": "EPERM"}}]}\n')
        yield from told(f"explained, {size}: another policy", browser.script("return document.querySelector('.why') === null"))
        browser.script("[...document.querySelectorAll('.trail button')].find((it) => it.textContent === 'Explain').click()")
        yield from told(f"explained, {size}: by another policy", browser.wait("document.querySelector('.why') !== null") and "The report has rule lxd.mknod.1:3" in browser.text(".why") and "none decides: deny error=EPERM." in browser.text(".why"), browser.text(".why"))
        put(browser, "policy", "{]\n")
        browser.script("[...document.querySelectorAll('.trail button')].find((it) => it.textContent === 'Explain').click()")
        yield from told(f"explained, {size}: a policy that is refused", browser.wait("document.querySelector('#answer').textContent.includes('not JSON')") and browser.script("return document.querySelector('.why') === null"), browser.text("#answer"))
        yield from (f"explained, {size}: {complaint}" for complaint in browser.complaints())


def policies_page(browser, address):
    """What is likely a mistake in the policy is noted at its lines, and the calls that another policy decides otherwise stand in a table."""
    careless, backups, changed = (text_of(f"{TOP}/examples/policies/{name}.json") for name in ("careless", "backups", "backups-changed"))
    for size, dark in (("desk", False), ("phone", True), ("tablet", False), ("great desk", True)):
        browser.size(*SIZES[size], dark=dark)
        browser.open(address)
        browser.wait("playground !== null && playground.editors.script.text.length > 0")
        put(browser, "policy", careless)
        noted = browser.wait("document.querySelectorAll('#policy .notes-of-lines li').length === 3")
        lines = browser.script("return [...document.querySelectorAll('#policy .gutter .noted')].map((it) => it.textContent)")
        yield from told(f"notes, {size}", noted and lines[:1] == ["5"] and "shadowed: this rule decides no call (by no-disks)" in browser.text("#policy .notes-of-lines"), f"{lines} {browser.text('#policy .notes-of-lines')}")
        browser.script("[...document.querySelectorAll('#policy .notes-of-lines button')][1].click()")
        yield from told(f"notes, {size}: the way to the place", browser.script("const field = document.querySelector('#policy textarea'); return document.activeElement === field && field.value.slice(field.selectionStart).startsWith('{\"kind\": \"fifo\"')"))
        yield from (f"notes, {size}: {fault}" for fault in browser.layout_faults(False))
        browser.shot(f"notes-{size.replace(' ', '-')}")
        put(browser, "policy", changed)
        yield from told(f"notes, {size}: gone with the text", browser.script("return document.querySelector('#policy .notes-of-lines').hidden && document.querySelector('#policy .noted') === null"))
        browser.click("[data-form=compare]")
        browser.shot(f"compared-dialog-{size.replace(' ', '-')}")
        compared(browser, backups)
        cells = browser.script("return [...document.querySelectorAll('.comparison tbody tr')].map((row) => [...row.children].map((it) => it.textContent))")
        yield from told(f"compared, {size}", len(cells) == 2 and cells[0][0] == "▲ wider" and cells[0][2:] == ["deny, error=EPERMno-disks", "grantbackups"] and "2 kinds of calls are decided differently" in browser.text("#answer"), f"{cells} {browser.text('#answer')}")
        yield from (f"compared, {size}: {fault}" for fault in browser.layout_faults(False))
        yield from told(f"compared, {size}: nothing stands outside", browser.script("const right = document.querySelector('.comparison').getBoundingClientRect().right; return [...document.querySelectorAll('.comparison, .comparison p, .comparison .wide')].every((it) => it.getBoundingClientRect().right <= right + 1)"))
        browser.script("document.querySelector('#result').scrollIntoView()")
        browser.shot(f"compared-{size.replace(' ', '-')}")
        browser.click("[data-form=compare]")
        compared(browser, changed)
        yield from told(f"compared, {size}: the same policy", browser.text("#answer").startswith("Equal"), browser.text("#answer"))
        browser.click("[data-form=compare]")
        compared(browser, "{")
        yield from told(f"compared, {size}: the other one is refused", "The other policy is refused" in browser.text("#answer") and browser.script("return document.querySelector('#policy .fault') === null"), browser.text("#answer"))
        put(browser, "policy", '{"rules": [],\n "x": 1}\n')
        browser.click("[data-form=compare]")
        compared(browser, backups)
        yield from told(f"compared, {size}: this one is refused", browser.text("#policy .gutter .fault") == "2" and browser.text("#policy mark") == '"x"', browser.text("#answer"))
        press(browser, "play")
        yield from (f"policies, {size}: {complaint}" for complaint in browser.complaints())


def compared(browser, other):
    """Puts another policy into the dialog, and waits for what is said."""
    browser.script("playground.tell(''); document.querySelector('#other').value = arguments[0]; document.querySelector('#compared button.main').click()", other)
    return answered(browser)


def choose_delays(browser, bound):
    browser.script("document.querySelector('#delays').value = arguments[0]", bound)


def slow_explorations(browser, room, program):
    """What is known of an exploration that is stopped, or that takes longer than it may, on a program that takes long for all orders and is none that is proved."""
    path = f"{room}/slow"
    with open(path, "w", encoding="utf-8") as file:
        file.write(SLOW.format(program=program or f"{TOP}/broker", all=ALL))
    os.chmod(path, 0o755)
    with playground(path) as port:
        browser.size(*DESK)
        browser.open(f"http://127.0.0.1:{port}/")
        browser.wait("playground !== null && playground.editors.script.text.length > 0")
        yield from told("a slow program says so", "several hundred times slower" in browser.text("#program"), browser.text("#program"))
        choose_delays(browser, ALL)
        browser.script("document.querySelector('[data-form=explore]').click()")
        yield from told("it is told how far an exploration is", browser.wait("/: [0-9.]+ s; bound [1-8] has ended: \\d+ orders, \\d+ outcome/.test(document.querySelector('#answer').textContent)"), browser.text("#answer"))
        browser.shot("exploring-desk")
        browser.script("document.querySelector('.stop').click()")
        yield from told("an exploration is stopped", answered(browser) and browser.wait("document.querySelector('#answer').textContent.startsWith('Stopped after')") and "whole=no" in browser.text("#answer"), browser.text("#answer"))
        yield from told("what is known of it", browser.script("return playground.output").startswith("explored workers=0 delays=all ") and browser.script("return document.querySelectorAll('.outcome').length") > 0)
        browser.script("document.querySelector('#seconds').value = 2")
        press(browser, "explore")
        yield from told("an exploration ends at its limit", "the limit of 2 s" in browser.text("#answer") and "whole=no" in browser.text("#answer"), browser.text("#answer"))
        yield from (f"slow explorations: {complaint}" for complaint in browser.complaints())


def ports(_, room):
    """A port that is taken is told, with what to do."""
    with socket.socket() as taken:
        taken.bind(("127.0.0.1", 0))
        taken.listen()
        port = taken.getsockname()[1]
        ended = subprocess.run([f"{TOP}/tools/commands/playground", "--port", str(port), "--program", f"{room}/none"], stdin=subprocess.DEVNULL, capture_output=True, text=True)
    yield from told("a port that is taken", ended.returncode == 1 and f"port {port} of 127.0.0.1 is taken" in ended.stderr and "--port" in ended.stderr and "Traceback" not in ended.stderr, ended.stderr)


PICTURES = (example_pictures, race, trails, keys_alone, great_reports, markup, tool, broken_clauses, words_of_copies, outcomes, containers, replacements, ports)
PAGES = (played_examples, refusals, runs_and_checks, explored_page, stepped_page, explained_page, policies_page, links, page_by_keys, page_sizes)


def all_faults(browser, room, program):
    for check in PICTURES:
        yield from check(browser, room)
    with playground(program) as port:
        address = f"http://127.0.0.1:{port}/"
        for check in PAGES:
            yield from check(browser, address)
        yield from saved(browser, address, room)
    yield from slow_explorations(browser, room, program)


def main():
    parser = ToolParser()
    parser.add_argument("--keep", metavar="FOLDER", type=os.path.abspath, help="where pictures of what it saw are kept")
    parser.add_argument("--program", type=os.path.abspath, help="the program that the playground runs, in place of ./broker")
    asked = parser.parse_args()
    if Browser is None and os.access(DEBIANS_PYTHON, os.X_OK) and os.path.realpath(sys.executable) != os.path.realpath(DEBIANS_PYTHON):
        os.execv(DEBIANS_PYTHON, [DEBIANS_PYTHON, f"{TOP}/broker", "--as", *sys.argv])
    if Browser is None or not shutil.which("chromium") or not shutil.which("chromedriver"):
        print("check-pages: there is no browser here, so no page was looked at: Debian's chromium, chromium-driver and python3-selenium are it")
        return 3
    if asked.keep:
        os.makedirs(asked.keep, exist_ok=True)
    begun, browser = time.monotonic(), Browser(asked.keep)
    try:
        with tempfile.TemporaryDirectory(prefix="check-pages-") as room:
            faults = list(all_faults(browser, room, asked.program))
    finally:
        browser.end()
    for fault in faults:
        print(f"check-pages: {fault}")
    print(f"check-pages: {len(EXAMPLES)} examples in up to {len(SIZES)} sizes in {time.monotonic() - begun:.0f} s; {len(faults)} at fault")
    return len(faults) > 0
