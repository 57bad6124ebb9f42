#!/usr/bin/env python3
"""Opens the page csvtable.html in Chromium without a window, and tries it.

    tools/try/browser.py PAGE CSVTABLE [COUNT [PICTURES]]

CSVTABLE is the program for Linux. The page must write the same bytes as the program for each case of crates/test_csv_cases/stdin
and for COUNT random inputs, by default 1,000. Files are chosen, dropped and pasted. Options, copying, scrolling, a large file and
a refused request are tried. The right edges of drawn lines must be at one place. Pictures of the page, in light and in dark
colours, are written into the folder PICTURES. If there is no Chromium, a line says so, and nothing is tried.
"""
import base64
import json
import os
import random
import re
import shutil
import subprocess
import sys
import tempfile
from pathlib import Path

from same_bytes import csvtable_input

TOP = Path(__file__).resolve().parents[2]
NAMES = ("chromium", "chromium-browser", "google-chrome")

# A function that draws by the page's own worker. It takes the input in base64, and the arguments.
DRAW = """async (input, words) => {
  const bytes = Uint8Array.from(atob(input), (it) => it.charCodeAt(0));
  const answer = await answer_of(new Blob([bytes]), words);
  if (!answer.bytes) return JSON.stringify(answer);
  let text = "";
  for (let at = 0; at < answer.bytes.length; at += 8192) text += String.fromCharCode(...answer.bytes.subarray(at, at + 8192));
  return JSON.stringify({ result: answer.result, bytes: btoa(text) });
}"""

# The ends of the shown lines, in pixels.
EDGES = """() => [...document.querySelectorAll("#lines > div")].filter((it) => it.textContent).map((it) => {
  const range = document.createRange();
  range.selectNodeContents(it);
  return range.getBoundingClientRect().right;
})"""

FILE = """(text, name) => {
  const data = new DataTransfer();
  data.items.add(new File([text], name));
  return data;
}"""


class Page:
    """A page in Chromium. Two pipes lead to Chromium, and commands of its protocol for tools control the page."""

    def __init__(self, program, address, profile):
        (read, theirs_out), (theirs_in, write) = os.pipe(), os.pipe()
        words = ["--headless=new", "--no-sandbox", "--disable-gpu", "--disable-dev-shm-usage", "--remote-debugging-pipe"]

        def connect():
            kept = os.dup(theirs_out)
            os.dup2(theirs_in, 3)
            os.dup2(kept, 4)

        self.process = subprocess.Popen(
            [program, *words, f"--user-data-dir={profile}", "about:blank"],
            preexec_fn=connect, close_fds=False, stdout=subprocess.DEVNULL, stderr=subprocess.DEVNULL,
        )
        os.close(theirs_in)
        os.close(theirs_out)
        self.answers, self.questions = os.fdopen(read, "rb"), os.fdopen(write, "wb")
        self.rest, self.count, self.session, self.events = b"", 0, None, []
        target = self.call("Target.createTarget", url="about:blank")["targetId"]
        self.session = self.call("Target.attachToTarget", targetId=target, flatten=True)["sessionId"]
        for domain in ("Page", "Runtime", "Log", "Network"):
            self.call(f"{domain}.enable")
        self.call("Page.navigate", url=address)
        self.wait("typeof drawn === 'object' && drawn !== undefined")

    def call(self, method, **params):
        self.count += 1
        message = {"id": self.count, "method": method, "params": params}
        if self.session:
            message["sessionId"] = self.session
        self.questions.write(json.dumps(message).encode() + b"\0")
        self.questions.flush()
        while True:
            answer = self.message()
            if answer.get("id") == self.count:
                if "error" in answer:
                    raise RuntimeError(f"{method}: {answer['error']}")
                return answer["result"]
            self.events.append(answer)

    def message(self):
        while b"\0" not in self.rest:
            got = os.read(self.answers.fileno(), 1 << 20)
            if not got:
                raise RuntimeError("Chromium ended")
            self.rest += got
        message, _, self.rest = self.rest.partition(b"\0")
        return json.loads(message)

    def run(self, script, *arguments):
        """Calls a function of JavaScript, and returns its result."""
        words = ", ".join(map(json.dumps, arguments))
        return self.value(f"({script})({words})")

    def value(self, expression):
        options = {"returnByValue": True, "awaitPromise": True, "userGesture": True}
        got = self.call("Runtime.evaluate", expression=expression, **options)
        if "exceptionDetails" in got:
            raise RuntimeError(got["exceptionDetails"].get("exception", got["exceptionDetails"]))
        return got["result"].get("value")

    def wait(self, condition):
        self.value(f"new Promise((done) => {{ const look = () => ({condition}) ? done() : setTimeout(look, 20); look(); }})")

    def shown(self):
        """The lines on the page, after the drawing that was requested last."""
        self.wait("!stop && document.getElementById('reported').textContent !== 'Drawing'")
        return self.value('[...document.querySelectorAll("#lines > div")].map((it) => it.textContent).join("\\n") + "\\n"')

    def picture(self, file, scheme):
        self.call("Emulation.setEmulatedMedia", features=[{"name": "prefers-color-scheme", "value": scheme}])
        file.write_bytes(base64.b64decode(self.call("Page.captureScreenshot")["data"]))


def unescaped(text):
    """A text of a case. crates/case_files/FORMAT.md says how it is written."""
    letters = {"n": "\n", "t": "\t", "r": "\r", "e": "\x1b", "\\": "\\"}
    return re.sub(r"\\(?:u\{([0-9A-Fa-f]+)\}|(.))", lambda it: chr(int(it[1], 16)) if it[1] else letters[it[2]], text)


def cases():
    """The arguments and the input of each case."""
    words, data = [], b""
    for line in (TOP / "crates/test_csv_cases/stdin").read_text().split("\n"):
        kind, *rest = line.split("\t")
        if kind == "arguments":
            words += map(unescaped, rest)
        elif kind == "input":
            data += unescaped(rest[0] if rest else "").encode() + b"\n"
        elif kind == "byte":
            data += bytes([int(rest[0])])
        elif kind == "end":
            yield words, data
            words, data = [], b""


def written_by(program, words, data):
    """The output of the program, or its message if it draws nothing. The library always reads all records. With --limit, the
    program does so only if it has --count, which is added then.

    An argument may be the name of the input. So the input is written into files with the names of all arguments.
    """
    environment = {name: value for name, value in os.environ.items() if name not in ("COLUMNS", "NO_COLOR")}
    with tempfile.TemporaryDirectory() as folder:
        for word in words:
            if re.fullmatch(r"\w[\w.-]*", word):
                (Path(folder) / word).write_bytes(data)

        def run(*added):
            call = [program, *added, *words]
            return subprocess.run(call, input=data, capture_output=True, timeout=120, env=environment, cwd=folder)

        done = run()
        if done.returncode == 0 and "--limit" in words:
            done = run("--count")
    return done.stderr if done.returncode else done.stdout


def compare(page, program, inputs):
    count = 0
    for words, data in inputs:
        answer = json.loads(page.run(DRAW, base64.b64encode(data).decode(), words))
        drawn, wanted = base64.b64decode(answer.get("bytes", "")), written_by(program, words, data)
        if drawn != wanted:
            sys.exit(f"csvtable {' '.join(words)} < {data!r}\nthe page: {answer.get('failure')} {drawn!r}\nthe program: {wanted!r}")
        count += 1
    return count


def check(is_so, words):
    if not is_so:
        sys.exit(f"not so: {words}")
    print(words)


def same(left, right, words):
    if left != right:
        print(left, right, sep="\n")
    check(left == right, words)


def try_uses(page, program):
    """Tries each way to give CSV, the options, and copying."""
    def native(words, text):
        width = page.value("String(columns())")
        return written_by(program, ["-w", width, *words], text.encode()).decode()

    text = "city,people\n京都,1463723\nالقاهرة,10203693\nMünchen,1510378\n☕ and 🍰,2\n"
    page.run(f"(text) => take(({FILE})(text, 'dropped.csv').files[0], 'dropped.csv')", text)
    same(page.shown(), native([], text), "a chosen file is drawn, as wide as the page")
    page.value("document.getElementById('words').value = '-s grid --limit \"2\"'; document.getElementById('words').oninput()")
    page.value("new Promise((done) => setTimeout(done, 300))")
    same(page.shown(), native(["-s", "grid", "--limit", "2"], text), "options change the drawing")
    page.value("document.getElementById('words').value = '--wide'; document.getElementById('words').oninput()")
    page.value("new Promise((done) => setTimeout(done, 300))")
    same(page.shown(), native(["--wide", "dropped.csv"], text), "a wrong option has csvtable's message")
    page.value("document.getElementById('words').value = ''")
    event = "Object.assign(new Event('drop', { bubbles: true, cancelable: true }), { dataTransfer: data })"
    page.run(f"(text) => {{ const data = ({FILE})(text, 'two.tsv'); document.body.dispatchEvent({event}); }}", text.replace(",", "\t"))
    same(page.shown(), native([], text), "a dropped file is drawn")
    event = "Object.assign(new Event('paste', { bubbles: true, cancelable: true }), { clipboardData: data })"
    pasted = "(text) => { const data = new DataTransfer(); data.setData('text/plain', text); document.body.dispatchEvent(" + event + "); }"
    page.run(pasted, text)
    same(page.shown(), native([], text), "pasted text is drawn")
    page.value("document.getElementById('pasted').value = 'a,b\\n1,2\\n'; document.getElementById('pasted').oninput()")
    same(page.shown(), native([], "a,b\n1,2\n"), "typed text is drawn")
    page.run(pasted, text)
    page.value("document.getElementById('markdown').click()")
    markdown = written_by(program, ["--markdown"], text.encode()).decode()
    same(page.shown(), markdown, "Markdown is drawn")
    page.call("Browser.grantPermissions", permissions=["clipboardReadWrite", "clipboardSanitizedWrite"])
    page.value("copy()")
    same(page.value("navigator.clipboard.readText()"), markdown, "the clipboard has the Markdown")
    page.value("document.getElementById('markdown').click()")
    page.shown()
    page.value("copy()")
    same(page.value("navigator.clipboard.readText()"), native([], text), "the clipboard has the drawing")


def try_edges(page):
    """Tries the right edges of lines in many scripts. Their widths in the browser's fonts differ from those in a terminal."""
    cells = ["日本語", "한글", "👨‍👩‍👧 and 🇩🇪", "✅", "é|á│ü", "ก็", "क्ष", "שלום עולם", "اب", "Αθήνα", "Москва", "1️⃣", "½ → ∞", "ﬁ ﬃ", "☕"]
    text = "text,count\n" + "".join(f"{cell},{at}\n" for at, cell in enumerate(cells))
    for style in ("rounded", "grid", "ascii", "UTF8_BORDERS_ONLY"):
        page.value(f"document.getElementById('words').value = '-s {style}'")
        page.run("(text) => take(new Blob([text]))", text)
        page.shown()
        edges = page.run(EDGES)
        check(max(edges) - min(edges) < 1, f"right edges of {len(edges)} lines in the style {style} are at one place")
    page.value("document.getElementById('words').value = '--ansi -d ,'")
    page.run("(text) => take(new Blob([text]))", "a\n\x1b[31mred\x1b[0m and \x1b[1;38;5;20mblue\x1b[0m\n")
    page.shown()
    color = page.value("getComputedStyle([...document.querySelectorAll('#lines span')].find((it) => it.textContent === 'blue')).color")
    check(color == "rgb(0, 0, 215)", "colours are shown")
    page.value("document.getElementById('words').value = ''")


def try_large(page, program):
    """Tries a file of 400,000 records (11 MB). The page must answer while the worker draws, and show each of the lines."""
    text = "name,place,amount,note\n" + "".join(f"n{at},京都,{at * 7919 % 100000}.50,text {at % 97}\n" for at in range(400_000))
    page.run("(text) => { window.given = new Blob([text]); }", text)
    page.value("document.getElementById('fits').checked = false")
    longest = page.value("""(async () => {
      let longest = 0, last = performance.now(), timer = setInterval(() => {
        longest = Math.max(longest, performance.now() - last);
        last = performance.now();
      }, 5);
      take(given);
      await new Promise((done) => { const look = () => !stop ? done() : setTimeout(look, 20); look(); });
      await new Promise((done) => setTimeout(done, 100));
      clearInterval(timer);
      return longest;
    })()""")
    page.shown()
    reported = page.value("document.getElementById('reported').textContent")
    check(longest < 1000, f"{len(text):,} bytes: {reported}; the page waits {longest:.0f} ms at most")
    wanted = written_by(program, [], text.encode()).decode().split("\n")[:-1]
    for share in (0.5, 1):
        page.value(f"of('view').scrollTop = {share} * (of('view').scrollHeight - of('view').clientHeight); showMore()")
        first = page.value("drawn.first")
        lines = page.shown().split("\n")[:-1]
        check(wanted[first : first + len(lines)] == lines, f"lines {first} to {first + len(lines)} of {len(wanted)} are shown")
    check(first + len(lines) == len(wanted), "the last line is among them")
    page.value("document.getElementById('fits').checked = true")


def try_privacy(page):
    """The page must have requested nothing but itself and its worker. A request to a server must be refused."""
    addresses = {it["params"]["request"]["url"] for it in page.events if it.get("method") == "Network.requestWillBeSent"}
    others = [it for it in addresses if not it.startswith(("file:", "blob:"))]
    same(others, [], f"the page requests nothing but itself and its worker ({len(addresses)} addresses)")
    blocked = """async (address) => {
      const seen = new Promise((done) => document.addEventListener("securitypolicyviolation", (it) => done(it.effectiveDirective)));
      fetch(address).catch(() => {});
      return seen;
    }"""
    check(page.run(blocked, "https://example.invalid/") == "connect-src", "a request by fetch is refused by the page's policy")
    blocked = blocked.replace("fetch(address).catch(() => {})", "new Image().src = address")
    check(page.run(blocked, "https://example.invalid/a.png") == "img-src", "so is that of an image")
    errors = [it for it in page.events if it.get("method") == "Runtime.exceptionThrown"]
    check(not errors, "no error was thrown")


def take_pictures(page, folder):
    folder.mkdir(parents=True, exist_ok=True)
    page.call("Emulation.setDeviceMetricsOverride", width=1000, height=860, deviceScaleFactor=1, mobile=False)
    text = "language,text,amount\n日本語,いろはにほへと 散りぬるを,12.50\nעברית,שלום עולם,-3\nالعربية,مرحبا بالعالم,1150.00\nहिन्दी,नमस्ते दुनिया,0.5\nEmoji,☕ and 🍰 👨‍👩‍👧,7\nΕλληνικά,Αθήνα,2400.00\n"
    for name, content in (("sample", None), ("scripts", text)):
        if content:
            page.run("(text) => take(new Blob([text]), 'scripts.csv')", content)
        else:
            page.run("() => draw()")
        page.shown()
        for scheme in ("light", "dark"):
            page.picture(folder / f"{name}-{scheme}.png", scheme)


def main():
    if len(sys.argv) not in (3, 4, 5):
        sys.exit(__doc__)
    file, program = (Path(it).resolve() for it in sys.argv[1:3])
    count = int(sys.argv[3]) if len(sys.argv) > 3 else 1000
    chromium = next(filter(None, map(shutil.which, NAMES)), None)
    if not chromium:
        print("no Chromium is there, so the page isn't tried")
        return
    with tempfile.TemporaryDirectory(ignore_cleanup_errors=True) as profile:
        page = Page(chromium, file.as_uri(), profile)
        try:
            if len(sys.argv) > 4:
                take_pictures(page, Path(sys.argv[4]))
            try_uses(page, program)
            try_edges(page)
            print(f"{compare(page, program, cases())} cases: the same bytes")
            inputs = (csvtable_input(random.Random(number)) for number in range(count))
            print(f"{compare(page, program, inputs)} random inputs: the same bytes")
            try_large(page, program)
            try_privacy(page)
        finally:
            page.process.terminate()
            page.process.wait()


if __name__ == "__main__":
    main()
