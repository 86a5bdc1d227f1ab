"""How verifiers/verify.html is used in a browser: for tools/checks/try-page, which says what is tried."""
import contextlib
import itertools
import os
import re

from cases.light_cases import ENTRY_BYTES, HEAD_BYTES
from cases.light_cases import MAGIC as LIGHT_MAGIC
from cases.long_proofs import long_range, long_trace, long_uses, root_of_long
from cases.proof_cases import MAGIC
from cases.verifier import told_of, verify
from checks.page_driver import CHECKS
from checks.page_runs import INDENT
from places import TOP

MAGICS = [MAGIC, b"LCT1", b"LCR1"]
VERDICTS = {0: "accepted", 1: "words", 8: "unreadable", 10: "refused", 11: "unreadable"}
# The verdict of a light file without proofs, of which nothing is told.
NO_PROOFS = "words"
SAMPLES = ["trace", "range", "hist", "back", "fwd", "light", "changed"]
# Of a picture so many versions are drawn at once.
DRAWN = 80
# The long proofs, and how many seconds each may take.
LONG = {
    "a proof of 58,000 uses": (lambda: (["verify"], *long_uses(58_000)), 2),
    "a proof of 3,200 versions": (lambda: (["range", "verify"], *long_range(3_200)), 2),
    "a proof of 5,400 ancestors": (lambda: (["trace", "verify"], *long_trace(2, 2_700)), 2),
    "a proof of 10,000 ancestors, each from 2": (lambda: (["trace", "verify"], *long_trace(2, 5_000)), 10),
    "a proof of 10,048 ancestors, each from 64": (lambda: (["trace", "verify"], *long_trace(64, 157)), 10),
}
# What a page asks for here is refused by its own policy; that is told by events.
ASKS = """
    const done = arguments[0], refused = [];
    document.addEventListener("securitypolicyviolation", (event) => refused.push(event.effectiveDirective));
    fetch("https://example.invalid/").catch(() => {});
    new Image().src = "https://example.invalid/a.png";
    document.body.append(Object.assign(document.createElement("script"), {src: "https://example.invalid/a.js"}));
    setTimeout(() => done(refused.sort()), 1000);
"""
NO_DIGESTS = 'Object.defineProperty(Crypto.prototype, "subtle", {get: () => undefined});'
WRONG_DIGESTS = "SubtleCrypto.prototype.digest = async () => new ArrayBuffer(32);"
FAILING_DIGESTS = "SubtleCrypto.prototype.digest = async () => { throw new Error('none today'); };"
SMALL, DARK = {"width": 390, "height": 844, "deviceScaleFactor": 2, "mobile": True}, "dark"


def digits_of(source):
    """The bytes that an input in hex stands for, where these begin as a proof; else none."""
    try:
        decoded = bytes.fromhex(source.decode("ascii").removesuffix("\n"))
    except (UnicodeDecodeError, ValueError):
        return None
    return decoded if decoded[:4] in MAGICS and source.strip() == source.removesuffix(b"\n") else None


def parts_of(source):
    """A light file and the proofs behind it, where each is whole and begins as one; else none."""
    count = int.from_bytes(source[len(LIGHT_MAGIC) : HEAD_BYTES], "big")
    at = HEAD_BYTES + count * ENTRY_BYTES
    parts = [source[:at]]
    while source[at : at + 4]:
        size = int.from_bytes(source[at : at + 4], "big")
        parts.append(source[at + 4 : at + 4 + size])
        if len(parts[-1]) < size or parts[-1][:4] != MAGIC:
            return None
        at += 4 + size
    is_whole = source.startswith(LIGHT_MAGIC) and len(parts[0]) == HEAD_BYTES + count * ENTRY_BYTES
    return parts if is_whole and len(parts) > 1 else None


def ways(run):
    """How a run's input can be given: as files with contents, or pasted."""
    if run.words == ["light"]:
        parts = parts_of(run.source)
        return [{"contents": [run.source]}, *([{"contents": parts}] if parts else [])]
    given, decoded = [{"contents": [run.source]}], digits_of(run.source)
    if decoded:
        given.append({"contents": [decoded]})
    if run.source.removesuffix(b"\n").isalnum():
        given.append({"pasted": run.source.decode("ascii")})
    return given


def start_of(run, told):
    """The version whose ancestors were told, as the picture has it."""
    return f"{run.words[3]} {told.split()[1]}"


def check_typed(checks, page, runs):
    """Each run as one makes it; of each trace that is accepted the picture has the versions that are told."""
    turn = itertools.count()
    for run in runs:
        given = ways(run)
        shown = page.check(run.words, **given[next(turn) % len(given)])
        told, status = run.wanted
        checks.same(f"{run.name}, typed", (shown["told"], shown["status"]), run.wanted)
        checks.same(f"{run.name}, its verdict", shown["verdict"], VERDICTS[status] if told else NO_PROOFS)
        checks.holds(f"{run.name} is shown", shown["visible"] or not told)
        if run.words[0] == "trace" and status == 0 and told != "none\n" and told.count("\n") < DRAWN:
            versions = sorted([start_of(run, told), *told.splitlines()[1:]])
            checks.same(f"{run.name}, its picture", sorted(page.drawn() or []), versions)
    print(f"{len(runs):7} runs typed in")


def check_digests(checks, page, runs):
    """The digests of runs are those of the browser, and so are those of the page's own test."""
    checks.same("the test of the digests", page.comes_to("self-test", "selfTest", "running"), "passed")
    tested = page.browser.wait_for("LineageVerifier.selfTest().then(arguments[0])")
    checks.same("what it tested", (tested["own"], tested["browser"]), (True, True))
    again = page.hashed_again(runs)
    checks.same("digests that the browser works out otherwise", again["different"], 0)
    checks.holds("there are such digests", again["count"] > len(runs))
    print(f"{again['count']:7} digests worked out by the browser too")


def check_stillness(checks, page):
    """Up to here the page asked for nothing but itself and nothing was written to the console; and where it asks, its
    policy refuses that."""
    checks.same("what was asked of the network", page.browser.asked_of_the_network(), ([page.address], []))
    checks.same("what the page fetched", page.browser.run("return performance.getEntriesByType('resource').length"), 0)
    checks.same("what stands in the console", [entry["message"] for entry in page.browser.logged("browser")], [])
    refused = page.browser.wait_for(ASKS)
    checks.same("what its policy refuses", refused, ["connect-src", "img-src", "script-src-elem"])
    asked, by_policy = page.browser.asked_of_the_network()
    checks.same("what was asked in spite of it", set(asked) - set(by_policy), set())
    page.browser.logged("browser")


# ---- limits, over inputs that are made in the browser

LONG_INPUT = """
    const [words, size] = arguments;
    const {told, status} = LineageVerifier.check({words, input: new Uint8Array(size).fill(0x30)});
    return [told, status];
"""
# A light file of no block, and frames of one byte.
MANY_FRAMES = """
    const count = arguments[0], input = new Uint8Array(8 + 5 * count);
    input.set([0x4C, 0x43, 0x48, 0x31]);
    for (let i = 0; i < count; i++) input[8 + 5 * i + 3] = 1;
    const {told, status} = LineageVerifier.check({words: ["light"], input});
    return [told.length, told.slice(-80), status];
"""


def check_limits(checks, page, has_many):
    """The longest input, and one byte more; and one frame too many."""
    words = ["verify", "0" * 64, "hist", "a", "0"]
    for size, told in [
        (verify.MAX_INPUT_BYTES, "rejected malformed 0\n"), (verify.MAX_INPUT_BYTES + 1, "badinput long\n")
    ]:
        status = verify.REJECTED if told.startswith("rejected") else verify.BAD_INPUT
        checks.same(f"an input of {size} bytes", page.browser.run(LONG_INPUT, words, size), [told, status])
    if has_many:
        lines = "".join(f"proof {at} rejected malformed 0\n" for at in range(verify.MAX_FRAMES))
        told = f"{lines}refused frame {verify.MAX_FRAMES} many\n"
        given = page.browser.run(MANY_FRAMES, verify.MAX_FRAMES + 1)
        checks.same("a frame too many", given, [len(told), told[-80:], verify.REFUSED])
    page.open()


# ---- the story of examples/recall.md


def example(name):
    with open(f"{TOP}/examples/{name}", encoding="utf-8") as file:
        return file.read()


def example_bytes(name):
    with open(f"{TOP}/examples/{name}", "rb") as file:
        return file.read()


def check_story(checks, page):
    """The page shows of the proofs of the story what that says, and of the one without a lot."""
    story, page_word = example("recall.md"), "return document.querySelector('#verdict .word').textContent"
    root = re.search(r"root=([0-9a-f]{64})", story)[1]
    of_lots, of_bags = (example(f"spinach-{name}.proof") for name in ("d1", "s3"))
    less = of_lots[:830] + "00000002" + of_lots[838:870] + of_lots[902:]
    asked = ["verify", root, "fwd", "raw/farm1/d1", "4"], ["trace", "verify", root, "raw/shop/s3", "4"]
    for name, words, proof in [("d1", asked[0], of_lots), ("s3", asked[1], of_bags), ("less", asked[0], less)]:
        shown = page.check(words, contents=[proof.encode()])
        lines, status = told_of(words, proof.encode())
        checks.same(f"{name} of the story", (shown["told"].splitlines(), shown["status"]), (lines, status))
        checks.holds(f"{name} is in the story as it is told", INDENT + f"\n{INDENT}".join(lines) in story)
        word = page.browser.run(page_word)
        checks.holds(f"{word} stands in the story", f"**{word}**" in story)
        if words == asked[1]:
            versions = ["raw/farm1/d1 0", "raw/farm2/d1 0", "raw/lot/l3 2", "raw/shop/s3 3"]
            checks.same("the picture of the story", sorted(page.drawn() or []), versions)


# ---- by keys alone


def check_keys(checks, page):
    """A trace is checked, and its picture gone through, by keys alone."""
    page.open()
    browser, root = page.browser, recall_root(page)
    digits = example("shop-s1.proof").strip()
    page.open()
    checks.holds("tab: to where digits are pasted", page.tab_to(lambda at: at == "SUMMARY"))
    browser.press("Enter")
    checks.holds("tab: to the digits", page.tab_to(lambda at: at == "proof-text"))
    browser.press(digits)
    checks.holds("tab: to the command", page.tab_to(lambda at: at == "command"))
    browser.press("Home", "Down")
    checks.same("the command", browser.run("return document.activeElement.value"), "trace verify")
    for field, word in [("root", root), ("key", "raw/shop/s1"), ("block", "2")]:
        checks.holds(f"tab: to {field}", page.tab_to(lambda at: at == field))
        browser.press(word)
    checks.holds("tab: to the button", page.tab_to(lambda at: at == "check"))
    before = browser.run(CHECKS)
    browser.press("Enter")
    shown = page.shown_after(before)
    told = "block 2 ancestors 2\nraw/part/p1 0\nraw/lot/l1 1\n"
    checks.same("what is told by keys alone", (shown["told"], shown["status"]), (told, 0))
    check_picture_by_keys(checks, page)
    check_steps_by_keys(checks, page)


def recall_root(page):
    """The root of the trace among the page's samples."""
    page.browser.click(page.find("[data-sample=trace]"))
    return page.browser.run("return document.getElementById('root').value")


def check_picture_by_keys(checks, page):
    browser = page.browser
    start = "raw/shop/s1 2"
    checks.holds("tab: to the picture", page.tab_to(lambda at: at == start))
    for key, wanted in [("Left", "raw/lot/l1 1"), ("Left", "raw/part/p1 0"), ("Right", "raw/lot/l1 1")]:
        browser.press(key)
        checks.same(f"{key} in the picture", page.focused(), wanted)
    browser.press("Enter")
    chosen = browser.run("return document.querySelector('#picture svg [data-selected]').dataset.version")
    checks.same("the version that is chosen", chosen, "raw/lot/l1 1")
    said = browser.run("return document.getElementById('chosen').textContent")
    checks.holds("what is said of it", "raw/lot/l1" in said and "120" in said)


def check_steps_by_keys(checks, page):
    browser = page.browser
    is_step = "return document.activeElement.tagName === 'SUMMARY' && !!document.activeElement.closest('[data-step]')"
    checks.holds("tab: to the steps", page.tab_to(lambda at: at == "SUMMARY" and browser.run(is_step)))
    is_open = "return document.activeElement.closest('details').open"
    before = browser.run(is_open)
    browser.press("Enter")
    checks.same("a step opens, or closes", browser.run(is_open), not before)


# ---- where the browser has no digests, or others


@contextlib.contextmanager
def opened_after(page, script):
    """The page, opened after a script that changes what the browser has."""
    made = page.browser.command("Page.addScriptToEvaluateOnNewDocument", source=script)
    page.open()
    yield
    page.browser.command("Page.removeScriptToEvaluateOnNewDocument", identifier=made["identifier"])


def sample_comes_to(page):
    """What a sample comes to: how its digests compare, and its verdict."""
    page.browser.click(page.find("[data-sample=trace]"))
    return page.comes_to("again", "again", "none", "running"), page.data("verdict", "verdict")


def check_other_digests(checks, page):
    """The page says where its digests can't be compared; where one differs, or the browser's fail, it gives no verdict
    and takes back what it showed, and where its own test finds that, it takes no check."""
    with opened_after(page, NO_DIGESTS):
        checks.same("the test, without digests", page.comes_to("self-test", "selfTest", "running"), "passed")
        checks.same("a check, without digests", sample_comes_to(page), ("absent", "accepted"))
    for name, script in [("other", WRONG_DIGESTS), ("failing", FAILING_DIGESTS)]:
        with opened_after(page, script):
            checks.same(f"the test, with {name} digests", page.comes_to("self-test", "selfTest", "running"), "failed")
            shut = "return [...document.querySelectorAll('#check, [data-sample]')].every((button) => button.disabled)"
            checks.holds(f"no check is taken with {name} digests", page.browser.run(shut))
            alarm = page.browser.run("return document.querySelector('#alarm[role=alert]').textContent")
            checks.holds(f"{name} digests are told beside the button", "checks nothing" in alarm)
        page.open()
        checks.same("the test, before they differ", page.comes_to("self-test", "selfTest", "running"), "passed")
        page.browser.run(script)
        checks.same(f"a check, with {name} digests", sample_comes_to(page), ("different", "unreadable"))
        checks.same(f"what is shown with {name} digests", page.browser.run(SHOWN_OF_RESULT), [])
    page.open()
    page.browser.logged("browser")


# ---- that nothing stands which isn't so

# Of what is shown of a check, what can be seen, and the text of what is told.
SHOWN_OF_RESULT = """
    const parts = ["told", "cause", "proofs", "picture", "meaning"].map((id) => document.getElementById(id));
    return parts.filter((part) => part.offsetParent).map((part) => part.id);
"""
# The page's check, which fails; and one that changes a value of the range, or of the answer, that was checked.
FAILING_CHECK = "LineageVerifier.check = () => { throw new RangeError('a made fault'); };"
CHANGED_VALUE = """
    const check = LineageVerifier.check;
    LineageVerifier.check = (request) => {
        const checked = check(request), {range, body} = checked.answer;
        if (range) [range.bodies[0].value, range.bodies[1].value] = [9223372036854775807n, -9223372036854775808n];
        else Object.assign(body, {tag: 1, value: "a  b"});
        return checked;
    };
"""
# Files that are dropped, of which some are read slowly, and a folder not at all.
SLOW_FILES = """
    const own = Blob.prototype.arrayBuffer;
    Blob.prototype.arrayBuffer = async function () {
        if (this.name === "folder") throw new DOMException("it can't be", "NotFoundError");
        await new Promise((done) => setTimeout(done, this.name === "slow" ? 400 : 0));
        return own.call(this);
    };
    window.dropFiles = (...names) => {
        const dataTransfer = new DataTransfer();
        for (const name of names) dataTransfer.items.add(new File(["4c43503100"], name));
        document.getElementById("drop").dispatchEvent(
            new DragEvent("drop", {bubbles: true, cancelable: true, dataTransfer}));
    };
"""
NAMES_OF_FILES = "return [...document.querySelectorAll('#files strong')].map((name) => name.textContent)"


def shown_text(page, selector):
    """What is shown as the text of an element, with its blanks."""
    return page.browser.run("return document.querySelector(arguments[0]).innerText", selector)


def take_sample(page, name):
    """Takes a sample, and waits for its check."""
    before = page.browser.run(CHECKS)
    page.browser.click(page.find(f"[data-sample={name}]"))
    return page.shown_after(before)


def check_forgetting(checks, page):
    """A verdict is gone once the question or a file is another; and where a check fails, nothing of it stands."""
    browser = page.browser
    page.open()
    changes = {field: lambda field=field: browser.type(page.elements[field], "1") for field in ("root", "key", "block")}
    changes |= {
        "kind": lambda: page.choose("kind", "fwd"),
        "command": lambda: page.choose("command", "trace verify"),
        "the pasted digits": lambda: page.paste("00"),
        "the question of the proof": lambda: browser.click(page.find("#fill")),
        "a file that is left out": lambda: browser.click(page.find("#files button")),
        "another file": lambda: page.give_files(b"00"),
        "clear": lambda: browser.click(page.elements["clear"]),
    }
    for name, change in changes.items():
        checks.same("a sample", take_sample(page, "hist")["verdict"], "accepted")
        change()
        checks.same(f"the verdict after {name}", page.data("verdict", "verdict"), "none")
        checks.same(f"what is shown after {name}", browser.run(SHOWN_OF_RESULT), [])
    take_sample(page, "trace")
    browser.run(FAILING_CHECK)
    before = browser.run(CHECKS)
    browser.click(page.elements["check"])
    checks.same("the verdict of a check that fails", page.shown_after(before)["verdict"], "unreadable")
    checks.same("what is shown of it", browser.run(SHOWN_OF_RESULT), [])
    checks.holds("the fault is told", "a made fault" in shown_text(page, "#verdict"))
    page.open()
    take_sample(page, "hist")
    browser.run("document.getElementById('root').value = 'ABC'")
    before = browser.run(CHECKS)
    browser.click(page.elements["check"])
    checks.same("the verdict of a wrong root", page.shown_after(before)["verdict"], "words")
    checks.same("the focus of a wrong root", page.focused(), "root")


def check_files(checks, page):
    """Files are taken in as they were given, whichever is read first; those that can't be read are named."""
    browser = page.browser
    page.open()
    browser.run(SLOW_FILES)
    browser.run("dropFiles('slow'); dropFiles('fast')")
    page.wait(lambda: browser.run(NAMES_OF_FILES) == ["fast"], "the second of two files")
    browser.wait_for("setTimeout(arguments[0], 600)")
    checks.same("the file that was given last", browser.run(NAMES_OF_FILES), ["fast"])
    browser.run("dropFiles('slow'); document.getElementById('clear').click()")
    browser.wait_for("setTimeout(arguments[0], 600)")
    checks.same("files after they are given up", browser.run(NAMES_OF_FILES), [])
    browser.run("dropFiles('fast'); dropFiles('folder')")
    browser.wait_for("setTimeout(arguments[0], 100)")
    checks.same("files beside one that can't be read", browser.run(NAMES_OF_FILES), [])
    checks.holds("that one is named", "folder can’t be read" in shown_text(page, "#proof-note"))
    page.open()


def check_light_uses(checks, page):
    """Light files: without a proof, two of them, one with very many proofs that are refused, and a sample, whose files
    others replace; each digest of each proof is worked out once more."""
    browser, empty = page.browser, LIGHT_MAGIC + bytes(4)
    shown = page.check(["light"], contents=[empty])
    checks.same("a light file alone", (shown["verdict"], shown["status"]), (NO_PROOFS, 0))
    checks.holds("that no proof is there", "no proof" in shown_text(page, "#verdict .word"))
    shown = page.check(["light"], contents=[empty, empty])
    checks.same("two light files", (shown["told"], shown["status"]), ("", 0))
    checks.holds("that one is read", "2 light files: one is read" in shown_text(page, "#proof-note"))
    shown = page.check(["light"], contents=[empty + 200_000 * b"\0\0\0\1\0"])
    checks.same("many proofs", (shown["verdict"], shown["told"].count("\n")), ("refused", 200_000))
    checks.same("of these so many are shown", len(browser.find("#proofs [data-proof]")), 500)
    browser.click(page.find("#proofs li > .more"))
    checks.same("and then more", len(browser.find("#proofs [data-proof]")), 1000)
    browser.command("Emulation.setEmulatedMedia", media="print")
    checks.holds("that there are more is printed", "199,000" in shown_text(page, "#proofs .more"))
    browser.command("Emulation.setEmulatedMedia", media="")
    take_sample(page, "light")
    checks.same("the digests of many proofs", page.comes_to("again", "again", "none", "running"), "same")
    of_each = browser.run(DIGESTS_OF_PROOFS, example_bytes("shelf.light").hex() + example_bytes("june-3.proofs").hex())
    checks.holds("these are those of each", f"the same {of_each} digests" in shown_text(page, "#again"))
    page.give_files(example_bytes("raw-a.proof"))
    checks.same("a file after a sample", browser.run(NAMES_OF_FILES), ["given-0"])
    checks.same("its command", browser.run("return document.getElementById('command').value"), "verify")
    page.open()


DIGESTS_OF_PROOFS = """
    const {proofs} = LineageVerifier.checkHexInput({words: ["light"], hex: arguments[0]});
    return proofs.flatMap((proof) => proof.look().steps).reduce((sum, step) => sum + step.digests.length, 0);
"""


def check_shown_values(checks, page):
    """Values are shown as they are: the blanks of a text, and the digits of the least and the greatest int."""
    page.open()
    page.browser.run(CHANGED_VALUE)
    take_sample(page, "hist")
    checks.holds("blanks in a verdict", "text a  b" in shown_text(page, "#verdict .sentence"))
    checks.holds("blanks in the chosen version", "text a  b" in shown_text(page, "#chosen"))
    take_sample(page, "range")
    levels = page.browser.run(
        "return [...document.querySelectorAll('#picture svg > text[text-anchor=end]')]"
        ".map((text) => [text.textContent, text.getBBox().x >= 0])"
    )
    wanted = [[str(level), True] for level in (-(2**63), 0, 2**63 - 1)]
    checks.same("the axis of a range", levels, wanted)
    page.open()
    take_sample(page, "trace")
    page.browser.type(page.find("#find"), "batch 17")
    found = page.browser.run("return document.getElementById('found-versions').textContent")
    checks.same("versions found by a value", found, "1 version found")


def check_narrow(checks, page):
    """In a narrow window nothing is wider than that."""
    for width in (320, 390):
        page.browser.command("Emulation.setDeviceMetricsOverride", **{**SMALL, "width": width})
        page.open()
        take_sample(page, "changed")
        widest = page.browser.run("return document.documentElement.scrollWidth")
        checks.holds(f"{widest} px in a window of {width}", widest <= width)
    page.browser.command("Emulation.clearDeviceMetricsOverride")
    page.open()


# ---- how long it takes


def check_speed(checks, page):
    """Long proofs, as one checks them: from choosing the file to what is shown."""
    for name, (made, most) in LONG.items():
        sort, proof, asked, lines = made()
        page.open()
        had = page.browser.seconds()
        words = [*sort, root_of_long(proof).hex(), *asked]
        shown, clock = page.timed_check(words, proof.hex().encode())
        processors, by_script = page.browser.seconds() - had, shown["milliseconds"] / 1000
        told = "".join(f"{line}\n" for line in lines)
        checks.holds(f"{name} is accepted", (shown["told"], shown["status"]) == (told, 0))
        checks.holds(f"{name} takes {min(clock, processors):.2f} s, of {most}", min(clock, processors) <= most)
        print(f"{name}, {len(proof):,} bytes: {clock:.2f} s, of which its checks {by_script:.2f} s;", end=" ")
        print(f"{processors:.2f} s of a processor, with filling in")


# ---- pictures


def keep_pictures(page, folder):
    """What the page shows of each sample, at first, in the dark, and in a small window."""
    os.makedirs(folder, exist_ok=True)
    page.open()
    page.browser.picture(f"{folder}/empty.png")
    for sample in SAMPLES:
        page.browser.click(page.find(f"[data-sample={sample}]"))
        page.browser.picture(f"{folder}/{sample}.png")
    page.browser.command("Emulation.setEmulatedMedia", features=[{"name": "prefers-color-scheme", "value": DARK}])
    page.browser.click(page.find("[data-sample=trace]"))
    page.browser.picture(f"{folder}/dark.png")
    page.browser.command("Emulation.setEmulatedMedia", features=[])
    page.browser.command("Emulation.setDeviceMetricsOverride", **SMALL)
    page.open()
    page.browser.click(page.find("[data-sample=trace]"))
    page.browser.picture(f"{folder}/small.png")
    page.browser.command("Emulation.clearDeviceMetricsOverride")
    print(f"try-page: what it shows is in {folder}")
