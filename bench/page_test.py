#!/usr/bin/env python3
"""Steps through the pages of traces in Debian's chromium, without a window, and compares what they show with the program's own words: the text and the
drawn lines after each line with `state --at`, what is new with what that line changed, each reply and each line of the log with `run --log`. It goes
forward by key and back, follows a link, steps through calls, and finds no message on the console and no request to the network. Each event has a caption.
Text has a contrast of at least 4.5:1 and letters of at least 11.9 pixels, light and dark, and nothing scrolls sideways at 1280x720 and at 390x844.
Text of a trace that looks like HTML stays text. A page of 64 cores and 300 lines is below 2 MB. Wants python3-selenium, chromium and chromium-driver. RADIXVM_PROGRAM is the program,
crates/radixvm/out/radixvm where it isn't given. Usage: bench/page_test.py [FOLDER [TRACE..]]
(screenshots go to FOLDER, if one is given; the traces are those of examples and examples/lessons, where none is)
"""
import os
import pathlib
import subprocess
import sys
import tempfile

from selenium import webdriver
from selenium.webdriver.common.by import By
from selenium.webdriver.common.keys import Keys

TOP = pathlib.Path(__file__).resolve().parent.parent
PROGRAM = os.environ.get("RADIXVM_PROGRAM", str(TOP / "crates/radixvm/out/radixvm"))

HTML = """# </script><script>console.error(1)</script> & <b>"quotes" \\ and \\u0041</b> <!--
vm 1 4
c0! mmap 0x10000 4096 rw- pfa
c0! store 0x10000 65
"""

# What the page shows: its text, the lines of the state that are drawn, and the replies and lines of the log that can be seen; then arrows, the drawn
# lines that are new, those of a core that are in another's card, the caption, and whether a text is cut off or has too little contrast.
SHOWN = """
const shown = (kind) => [...document.querySelectorAll("#lines " + kind)].filter((e) => getComputedStyle(e).display !== "none").map((e) => e.textContent);
const drawn = [...document.querySelectorAll("main [data-line]")];
return [document.getElementById("text").textContent, drawn.map((e) => e.dataset.line), shown(".reply"), shown(".log"),
  [...document.querySelectorAll("#lines .text")].map((e) => e.firstChild ? e.firstChild.textContent : ""), document.querySelectorAll("#arrows g path").length,
  drawn.filter((e) => e.dataset.fresh !== undefined).map((e) => e.dataset.line),
  drawn.filter((e) => e.closest(".card")).map((e) => [e.dataset.line, e.closest(".card").id]).filter(([line, card]) =>
    !line.startsWith("core " + card.slice(4) + " ")),
  ["does", "also", "author"].map((id) => document.getElementById(id).textContent).join(" ").trim()];
"""

# The least contrast of a text with what is behind it, and which text that is; the least size of its letters in pixels.
CONTRAST = """
const luminance = (rgb) => { const [r, g, b] = rgb.map((v) => { v /= 255; return v <= .03928 ? v / 12.92 : ((v + .055) / 1.055) ** 2.4; });
  return .2126 * r + .7152 * g + .0722 * b; };
const parsed = (text) => text.match(/[\\d.]+/g).map(Number);
const behind = (e) => { for (; e; e = e.parentElement) { const c = parsed(getComputedStyle(e).backgroundColor); if (c.length < 4 || c[3] > 0) return c.slice(0, 3); }
  return [255, 255, 255]; };
let least = [99, "", 99];
for (const e of document.querySelectorAll("body *")) {
  if (![...e.childNodes].some((n) => n.nodeType === 3 && n.textContent.trim()) || !e.getClientRects().length) continue;
  if (e.matches("script, style, noscript, .skip") || e.closest("[hidden]")) continue;
  const style = getComputedStyle(e);
  if (style.visibility === "hidden" || parseFloat(style.fontSize) === 0) continue;
  const [one, two] = [luminance(parsed(style.color).slice(0, 3)), luminance(behind(e))].sort((a, b) => b - a);
  const ratio = (one + .05) / (two + .05);
  if (ratio < least[0]) least = [ratio, e.className + ": " + e.textContent.slice(0, 40), least[2]];
  least[2] = Math.min(least[2], parseFloat(style.fontSize));
}
return least;
"""


def run(*words, text=None):
    """What the program writes for these words."""
    return subprocess.run([PROGRAM, *words], input=text, capture_output=True, text=True, check=False)


def crowd():
    """A trace of 64 cores and 300 lines: all load a page, and one takes it from them."""
    lines = ["vm 64 4096", "c0! mmap 0x10000 65536 rw- pfa", "c0! store 0x10000 1"]
    lines += [f"c{core}! load 0x10000" for core in range(64)] + ["c0 call munmap 0x10000 4096", "c0 finish"]
    lines += [f"c{core} take" for core in range(1, 64) for _ in range(2)] + ["c0 finish"]
    lines += [f"c{at % 64}! load {hex(0x11000 + at % 8 * 4096)}" for at in range(300 - len(lines))]
    return "\n".join(lines) + "\n"


def browser():
    """A browser without a window."""
    options = webdriver.ChromeOptions()
    for word in ("--headless=new", "--no-sandbox", "--disable-gpu", "--window-size=1600,1000", "--force-color-profile=srgb"):
        options.add_argument(word)
    options.set_capability("goog:loggingPrefs", {"browser": "ALL"})
    driver = webdriver.Chrome(options=options)
    driver.set_script_timeout(300)  # a thousand steps take long where other programs run
    return driver


class Page:
    """A page in the browser."""

    def __init__(self, driver, trace, folder):
        self.driver, self.trace, self.states, self.logs = driver, trace, {0: ["epoch 0"]}, {}
        self.text = trace.read_text()
        written = run("html", str(trace))
        if written.returncode:
            sys.exit(f"bench/page_test.py: {trace}: {written.stderr}")
        self.file = folder / (trace.stem + ".html")
        self.file.write_text(written.stdout)
        self.driver.get(self.file.as_uri())

    def press(self, key):
        self.driver.find_element(By.TAG_NAME, "body").send_keys(key)

    def steps(self):
        """Goes from the first line to the last, each step of a call by itself, a thousand steps at the most, and the rest of the lines at once."""
        self.press(Keys.HOME)
        self.press("s")
        self.press(Keys.ARROW_RIGHT)
        steps = self.driver.execute_script("""
let steps = 1;
while (steps < 1000 && !byId("next").disabled) { document.body.dispatchEvent(new KeyboardEvent("keydown", { key: "j", bubbles: true })); steps += 1; }
return steps;""")
        self.press(Keys.END)
        return steps

    def state(self, line):
        """The lines of the state behind a line, by the program."""
        if line not in self.states:
            state = run("state", "--at", str(line), str(self.trace))
            self.states[line] = state.stdout.split("\n")[:-1] if state.returncode == 0 else ["epoch 0"]
        return self.states[line]

    def events(self):
        """The numbers of the lines that do something."""
        quiet = ("#", "vm ", "file ")
        return [at for at, line in enumerate(self.text.removesuffix("\n").split("\n"), 1) if line.strip() and not line.strip().startswith(quiet)]

    def check(self, line, step=False):
        """Compares what is shown after this line, or one of its steps, with the program's words."""
        text, drawn, replies, log, lines, _, lit, strayed, caption = self.driver.execute_script(SHOWN)
        state, where = self.state(line), f"{self.trace.name}, line {line}"
        assert text == "".join(one + "\n" for one in state), f"{where}: the text is {text!r}, and not {state}"
        assert sorted(drawn) == sorted(state), f"{where}: {sorted(drawn)} is drawn, and not {sorted(state)}"
        fresh = sorted(set(state).difference(self.state(max(0, line - 1))))
        assert step or sorted(lit) == fresh, f"{where}: {sorted(lit)} is lit, and not {fresh}"
        assert not strayed, f"{where}: these are in another core's card: {strayed}"
        assert caption and "undefined" not in caption and "NaN" not in caption, f"{where}: the caption is {caption!r}"
        assert lines == self.text.removesuffix("\n").split("\n"), f"{where}: other lines"
        want, before = self.shown(line), [one for one in self.shown(line - 1) if one.startswith("log ")]
        assert [" = " + one for one in want if not one.startswith("log ")] == replies, f"{where}: replies {replies}, and not {want}"
        own = [one for one in want if one.startswith("log ")][len(before):]
        assert own == log, f"{where}: the log {log}, and not {own}"

    def shown(self, line):
        """What `run --log` writes of the trace up to this line; nothing where it isn't a trace yet."""
        if line not in self.logs:
            told = run("run", "--log", text="".join(part + "\n" for part in self.text.split("\n")[:line])) if line > 0 else None
            self.logs[line] = told.stdout.split("\n")[:-1] if told and told.returncode == 0 else []
        return self.logs[line]

    def look(self):
        """Contrast and size of letters, light and dark, and that nothing scrolls sideways."""
        for scheme in ("light", "dark"):
            self.driver.execute_cdp_cmd("Emulation.setEmulatedMedia", {"features": [{"name": "prefers-color-scheme", "value": scheme}]})
            for width, height in ((1280, 720), (390, 844)):
                self.driver.execute_cdp_cmd("Emulation.setDeviceMetricsOverride", {"width": width, "height": height, "deviceScaleFactor": 1, "mobile": False})
                ratio, text, size = self.driver.execute_script(CONTRAST)
                where = f"{self.trace.name}, {scheme}, {width} wide"
                assert ratio >= 4.5, f"{where}: a contrast of {ratio:.2f}: {text}"
                assert size >= 11.9, f"{where}: letters of {size} pixels"
                wide = self.driver.execute_script("return document.documentElement.scrollWidth")
                assert wide <= width, f"{where}: the page is {wide} wide"
        self.driver.execute_cdp_cmd("Emulation.clearDeviceMetricsOverride", {})
        self.driver.execute_cdp_cmd("Emulation.setEmulatedMedia", {"features": [{"name": "prefers-color-scheme", "value": "light"}]})

    def walk(self):
        """Steps from event to event, to the end and back, and follows a link."""
        events, count = self.events(), len(self.text.removesuffix("\n").split("\n"))
        self.check(0)
        for at, line in enumerate(events):
            self.press([Keys.ARROW_RIGHT, "j", Keys.SPACE][at % 3])
            self.check(line)
            if at == len(events) // 2:
                self.look()
        self.press(Keys.HOME)
        self.check(0)
        self.press(Keys.END)
        self.check(count)
        self.press("k")
        self.check([line for line in [0, *events] if line < count][-1])
        self.driver.execute_script("document.querySelectorAll('#lines a')[arguments[0]].click()", count // 2)
        self.check(count // 2 + 1)
        self.driver.get(self.file.as_uri() + f"#{count}")
        self.driver.refresh()
        self.check(count)
        steps = self.steps()
        self.check(count, step=True)
        self.press("s")
        told = [entry for entry in self.driver.get_log("browser") if "favicon" not in entry["message"]]
        assert not told, f"{self.trace.name}: the console has {told[:3]}"
        asked = self.driver.execute_script("return performance.getEntriesByType('resource').map((e) => e.name)")
        assert not asked, f"{self.trace.name}: the page asks for {asked}"
        return count, steps


def take_pictures(page, folder, dark):
    """Screenshots of the line with the most arrows."""
    page.driver.execute_cdp_cmd("Emulation.setEmulatedMedia", {"features": [{"name": "prefers-color-scheme", "value": "dark" if dark else "light"}]})
    count = len(page.driver.find_elements(By.CSS_SELECTOR, "#lines li"))
    best, most = 1, -1
    for line in range(1, count + 1):
        page.driver.execute_script(f"go({line})")
        text, _, _, _, _, arrows, *_ = page.driver.execute_script(SHOWN)
        if (arrows, len(text)) > (most, 0) and arrows * 1000 + len(text) > most * 1000:
            best, most = line, max(most, arrows)
    page.driver.execute_script(f"go({best})")
    page.driver.execute_cdp_cmd("Emulation.setDeviceMetricsOverride", {"width": 1280, "height": 720, "deviceScaleFactor": 1, "mobile": False})
    page.driver.save_screenshot(str(folder / f"{page.trace.stem}-{best}{'-dark' if dark else ''}.png"))


def main():
    out = pathlib.Path(sys.argv[1]) if len(sys.argv) > 1 else None
    traces = [pathlib.Path(word) for word in sys.argv[2:]] or [*sorted((TOP / "examples").glob("*.trace")), *sorted((TOP / "examples/lessons").glob("*.trace"))]
    if out:
        out.mkdir(parents=True, exist_ok=True)
    with tempfile.TemporaryDirectory() as name:
        folder = pathlib.Path(name)
        (folder / "html.trace").write_text(HTML)
        (folder / "crowd.trace").write_text(crowd())
        driver = browser()
        try:
            for trace in [*traces, folder / "html.trace"]:
                page = Page(driver, trace, folder)
                lines, steps = page.walk()
                print(f"{trace.name}: {lines} lines, {steps} steps, {page.file.stat().st_size} bytes")
                if out:
                    take_pictures(page, out, False)
            page = Page(driver, folder / "crowd.trace", folder)
            size = page.file.stat().st_size
            assert size < 2_000_000, f"crowd.trace: {size} bytes"
            page.press(Keys.END)
            page.check(300)
            print(f"crowd.trace: 300 lines of 64 cores, {size} bytes")
            if out:
                take_pictures(page, out, True)
        finally:
            driver.quit()
        bad = folder / "bad.trace"
        bad.write_text(HTML + "c0! nonsense\n")
        told = run("html", str(bad))
        assert (told.stdout, told.returncode) == ("", 2) and ":5:" in told.stderr, told
    print("all pages show the states")


if __name__ == "__main__":
    main()
