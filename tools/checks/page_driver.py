"""verifiers/verify.html in a browser: as one uses it, with its fields, files and buttons, and by its script's entry."""
import os
import pathlib
import time

from places import TOP

PAGE = f"{TOP}/verifiers/verify.html"
FIELDS = ["root", "key", "block", "from", "to"]
# The words of each command behind its name.
ASKED = {
    "verify": ["root", "kind", "key", "block"],
    "trace verify": ["root", "key", "block"],
    "range verify": ["root", "key", "from", "to"],
    "light": [],
}
# How long the page may take for a check, in seconds.
LIMIT = 600
CHECKS = "return Number(document.documentElement.dataset.checks || 0)"
SHOWN = """
    const of = (id) => document.getElementById(id);
    return {told: of("told").textContent, status: Number(of("status").dataset.status),
        verdict: of("verdict").dataset.verdict, milliseconds: Number(of("verdict").dataset.milliseconds),
        visible: !!of("told").offsetParent};
"""
BATCH = """
    return arguments[0].map(([words, hex]) => {
        const {told, status} = LineageVerifier.checkHexInput({words, hex});
        return [told, status];
    });
"""
AGAIN = """
    const [batch, done] = arguments;
    (async () => {
        const result = {count: 0, different: 0};
        for (const [words, hex] of batch) {
            const {count, different} = await LineageVerifier.again(LineageVerifier.checkHexInput({words, hex}).steps);
            result.count += count;
            result.different += different;
        }
        done(result);
    })();
"""
# Presses the button; the answer is how many milliseconds pass until the browser has drawn what is shown.
TIMED_CHECK = """
    const done = arguments[0], start = performance.now();
    const checks = () => Number(document.documentElement.dataset.checks || 0), before = checks();
    document.getElementById("check").click();
    const look = () => {
        if (checks() === before) setTimeout(look, 0);
        else requestAnimationFrame(() => setTimeout(() => done(performance.now() - start), 0));
    };
    look();
"""
# Notes when a file is chosen, and when it was read.
WATCH_FILES = """
    const times = window.timesOfFiles = {};
    const note = (name) => () => { times[name] = performance.now(); };
    document.getElementById("proof-file").addEventListener("change", note("chosen"), true);
    new MutationObserver(note("read")).observe(document.getElementById("files"), {childList: true});
"""
DRAWN = """
    const names = [...document.querySelectorAll("#picture svg [data-version]")].map((group) => group.dataset.version);
    return document.getElementById("picture").hidden ? null : names;
"""


class Page:
    """The page, as it stands in a browser."""

    def __init__(self, browser, folder):
        self.browser, self.folder = browser, folder
        self.address = pathlib.Path(PAGE).as_uri()
        self.open()

    def open(self):
        """Opens the page anew."""
        self.browser.open(self.address)
        self.elements = {id: self.find(f"#{id}") for id in [*FIELDS, "proof-file", "proof-text", "check", "clear"]}

    def find(self, selector):
        [element] = self.browser.find(selector)
        return element

    def choose(self, id, value):
        """Chooses one of a list."""
        self.browser.click(self.find(f'#{id} option[value="{value}"]'))

    def put(self, **words):
        """Fills the fields that a command shows."""
        for id, word in words.items():
            if id == "kind":
                self.choose(id, word)
            elif word:
                self.browser.type(self.elements[id], word)

    def give_files(self, *contents):
        """Chooses files with these contents."""
        paths = []
        for at, content in enumerate(contents):
            paths.append(os.path.join(self.folder, f"given-{at}"))
            with open(paths[-1], "wb") as file:
                file.write(content)
        script = "return document.querySelectorAll('#files li').length"
        self.browser.type(self.elements["proof-file"], "\n".join(paths))
        self.wait(lambda: self.browser.run(script) == len(contents), "the files that were chosen")

    def paste(self, text):
        """Puts a text where one types hex digits, as pasting does."""
        self.browser.run("document.querySelector('.paste').open = true")
        self.browser.click(self.elements["proof-text"])
        self.browser.command("Input.insertText", text=text)

    def check(self, words, contents=(), pasted=None):
        """What the page shows of a run, once all was filled in and the button pressed."""
        self.fill(words, contents, pasted)
        before = self.browser.run(CHECKS)
        self.browser.click(self.elements["check"])
        return self.shown_after(before)

    def timed_check(self, words, content):
        """The same of one file, and how many seconds pass from choosing it to what is drawn, but for filling in."""
        self.browser.run(WATCH_FILES)
        self.fill(words, [content])
        taken = self.browser.run("return timesOfFiles.read - timesOfFiles.chosen")
        checked = self.browser.wait_for(TIMED_CHECK)
        return self.browser.run(SHOWN), (taken + checked) / 1000

    def fill(self, words, contents=(), pasted=None):
        """Fills in a run: the files or the digits, and the words."""
        self.browser.click(self.elements["clear"])
        [name] = [name for name in ASKED if words[: len(name.split())] == name.split()]
        if contents:
            self.give_files(*contents)
        if pasted is not None:
            self.paste(pasted)
        self.choose("command", name)
        self.put(**dict(zip(ASKED[name], words[len(name.split()) :])))

    def shown_after(self, before):
        """What is shown once there were more checks than these."""
        self.wait(lambda: self.browser.run(CHECKS) > before, "the end of a check")
        return self.browser.run(SHOWN)

    def wait(self, is_so, what):
        end = time.monotonic() + LIMIT
        while not is_so():
            if time.monotonic() > end:
                raise TimeoutError(f"the page didn't come to {what} in {LIMIT} s")
            time.sleep(0.02)

    def data(self, id, name):
        """What an element says of itself by an attribute."""
        return self.browser.run("return document.getElementById(arguments[0]).dataset[arguments[1]]", id, name)

    def comes_to(self, id, name, *passing):
        """What that is once it is none of those that pass."""
        self.wait(lambda: self.data(id, name) not in passing, f"the end of {id}")
        return self.data(id, name)

    def drawn(self):
        """The versions of the picture; none where there is no picture."""
        return self.browser.run(DRAWN)

    # ---- by the script's entry

    def checked(self, runs):
        """What the page tells of runs, by its script alone."""
        given = [[run.words, run.source.hex()] for run in runs]
        return [tuple(told) for told in self.browser.run(BATCH, given)]

    def hashed_again(self, runs):
        """How many digests of these runs the browser works out once more, and how many differ."""
        return self.browser.wait_for(AGAIN, [[run.words, run.source.hex()] for run in runs])

    # ---- by keys alone

    def focused(self):
        """What has the focus: its id, else what it says of itself."""
        return self.browser.run(
            "const at = document.activeElement; return at.id || at.dataset.version || at.dataset.sample || at.tagName"
        )

    def tab_to(self, is_there, most=120):
        """Presses the tab key until the focus is there; whether it comes there."""
        for _ in range(most):
            self.browser.press("Tab")
            if is_there(self.focused()):
                return True
        return False
