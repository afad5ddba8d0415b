"""The desk in Chromium. By hand: it wants chromium, chromedriver (Debian's chromium-driver), nginx, openssl and what the desk
wants, and takes a minute; `paper` wants what the checks of `fax` want as well."""
import time

from . import fax_line
from .browser import Browser, ENTER, Office, until
from .desk import TWO_PAGES, converted
from .runner import group
from .shared import CLOSE, answer_to, expect, expect_same, option, post, wants, within

check = group("office", "Tries the desk in Chromium, through nginx with examples/fax.nginx.", by_hand=True)


def document(folder):
    file = folder / "a report.pdf"
    file.write_bytes(converted(folder, "pdf", TWO_PAGES))
    return file


@check
def page(folder):
    """A PDF becomes one fax, also when the form is sent again; its pages are previewed, and its buttons work by the keyboard;
    what a user writes is text; what happens is shown without a new load; each control has a name, and nothing is wider than a
    telephone."""
    wants("chromium", "chromedriver", "nginx", "openssl")
    with Office(folder, "anna", "otto") as office:
        file = document(folder)
        with Browser(office) as browser:
            browser.load()
            submitted(office, browser, file)
            changed(office, browser)
            new_state(office, browser)
            named(browser)
            older_ones(office, browser)
            light_and_dark(browser)
            if picture := option("picture"):
                browser.picture(picture)
        on_a_telephone(office)


PATTERN = """const field = document.forms[0].elements.number; field.value = 'x'; const bad = field.validity.patternMismatch;
field.value = '+1 (415) 555.0100'; const good = field.validity.valid; field.value = ''; return [bad, good]"""
CAN_SUBMIT = "return document.querySelector('form[enctype] button')?.disabled === false"
SEES_PAGES = "window.scrollTo(0, 9999); return [...document.images].map(image => image.naturalWidth > 500)"
HAS_BUTTON = "return document.querySelector(`form[action$='/${arguments[0]}'] button`) !== null"
CHANGES = {"suspend": "It is suspended.", "resume": "It goes with the next free modem.", "kill": "It failed: Killed.", "again": "Rest of"}


def submitted(office, browser, file):
    """One fax comes of one form, and it shows its pages."""
    expect_same(browser.runs(PATTERN), [True, True], "whether the pattern of a number refuses and admits")
    browser.submits(file, "+1 415 555-0100", "<b>&\"' ✓")
    until(lambda: browser.path() == "/faxes/1", "the fax is shown")
    browser.shows("It goes with the next free modem.")
    browser.shows("<b>&\"' ✓")
    expect_same(office.jobs(), 1, "how many jobs one form makes")
    browser.asks("POST", "/back")
    until(lambda: browser.runs(CAN_SUBMIT), "the form can be used again")
    browser.load("/faxes/1")
    until(lambda: browser.runs(SEES_PAGES) == [True, True], "both pages are previewed")


def changed(office, browser):
    """Buttons are pressed by the keyboard."""
    for button, shown in CHANGES.items():
        until(lambda: browser.runs(HAS_BUTTON, button) or browser.load("/faxes/1"), f"the button {button}")
        browser.types(f"form[action$='/{button}'] button", ENTER)
        browser.shows(shown)
    until(lambda: browser.path() == "/faxes/2", "the rest is another fax")
    browser.shows("It goes with the next free modem.")


def new_state(office, browser):
    """What happens is shown without a new load of the page, failures first, and another user doesn't see it."""
    browser.load()
    browser.runs("window.loaded = true")
    browser.shows("2\t+14155550100")
    expect_same(answer_to(office.server.port, post("/jobs/2/suspend", 1, "", "other", CLOSE))[0], 200, "a suspension")
    text = browser.shows("It is suspended.")
    expect(text.index("It failed: Killed.") < text.index("It is suspended."), f"failures aren't first: {text}")
    expect(browser.runs("return window.loaded"), "the page was loaded again")
    browser.load(user="otto")
    browser.shows("There is none yet.")
    browser.load("/faxes/2", "otto")
    browser.shows("There is no such fax.", "main")
    browser.load()


def named(browser):
    """A screen reader has a name for each control."""
    names = browser.names()
    nameless = [role for role, name in names if role in ("button", "textbox", "combobox", "link", "DateTime") and not name]
    expect(not nameless, f"without a name: {nameless}")
    for wanted in ("button", "Send"), ("textbox", "Number to dial"), ("columnheader", "What is next"), ("heading", "Your faxes"):
        expect(wanted in names, f"a screen reader doesn't find {wanted} in {names}")


def older_ones(office, browser):
    """Older faxes than the newest 200 are a key away."""
    office.desk.database(
        "WITH RECURSIVE old (number) AS (SELECT 1 UNION ALL SELECT number + 1 FROM old WHERE number < 201) "
        "INSERT INTO faxes (owner, token, created, number, name, resolution, file_name, uploads, stage, reason, is_told) "
        "SELECT 'anna', 'old-' || number, 1, '5550111', 'old ' || number, 'fine', 'x', '', 'unusable', 'no', 1 FROM old")
    browser.load()
    browser.types("a[rel=next]", ENTER)
    until(lambda: "before=" in browser.path(), "the older faxes are shown")
    browser.shows("old 1\t")
    expect("old 2\t" not in browser.shows("Newest faxes"), "a fax of the first page is on the second")
    office.desk.database("DELETE FROM faxes WHERE token LIKE 'old-%'")
    browser.load()


# The contrast of each text on the page with its background (WCAG 2.2, 1.4.3), the least of them.
CONTRAST = """
const light = color => {
  const [r, g, b] = color.match(/[\\d.]+/g).slice(0, 3).map(value => value / 255)
    .map(value => value <= 0.04045 ? value / 12.92 : ((value + 0.055) / 1.055) ** 2.4);
  return 0.2126 * r + 0.7152 * g + 0.0722 * b;
};
const ground = light(arguments[0]), contrast = text => (Math.max(text, ground) + 0.05) / (Math.min(text, ground) + 0.05);
const hasText = one => [...one.childNodes].some(node => node.nodeType === 3 && node.data.trim());
const all = [...document.querySelectorAll('main *')].filter(one => hasText(one) && !one.closest('button, input, select'));
return Math.min(...all.map(one => contrast(light(getComputedStyle(one).color))));"""


def light_and_dark(browser):
    """Every text can be read on a light ground, and where the user wants that on a dark one."""
    for scheme, ground in ("light", "rgb(255, 255, 255)"), ("dark", "rgb(18, 18, 18)"):
        browser.asks("POST", "/goog/cdp/execute", {"cmd": "Emulation.setEmulatedMedia", "params": {
            "features": [{"name": "prefers-color-scheme", "value": scheme}]}})
        least = browser.runs(CONTRAST, ground)
        expect(least >= 4.5, f"{scheme}: the least contrast of a text is {least}")
    browser.asks("POST", "/goog/cdp/execute", {"cmd": "Emulation.setEmulatedMedia", "params": {"features": []}})


def on_a_telephone(office):
    """Nothing is wider than a telephone."""
    with Browser(office, "360,740") as browser:
        browser.asks("POST", "/goog/cdp/execute", {"cmd": "Emulation.setDeviceMetricsOverride", "params": {
            "width": 360, "height": 740, "deviceScaleFactor": 1, "mobile": True}})
        for path in "/", "/faxes/1":
            browser.load(path)
            browser.shows("Killed")
            wide = browser.runs("return [document.scrollingElement.scrollWidth, innerWidth]")
            expect(wide[0] <= wide[1] == 360, f"on a telephone {path} is {wide}")


@check
def no_script(folder):
    """Without JavaScript a fax is submitted, looked at and killed."""
    wants("chromium", "chromedriver", "nginx", "openssl")
    with Office(folder, "anna") as office, Browser(office) as browser:
        browser.asks("POST", "/goog/cdp/execute", {"cmd": "Emulation.setScriptExecutionDisabled", "params": {"value": True}})
        browser.load()
        browser.submits(document(folder), "5550111")
        until(lambda: browser.path() == "/faxes/1", "the fax is shown")
        within("its job", lambda: office.desk.fax(1)["state"] == "ready")
        time.sleep(1)
        browser.load("/faxes/1")
        browser.types("form[action$='/kill'] button", ENTER)
        within("the fax is killed", lambda: office.desk.fax(1)["state"] == "failed")


@check
def paper(folder):
    """A PDF that is submitted in Chromium, through nginx with TLS and a password, is received over a line of soft modems as
    ghostscript prints that PDF, each page once; every third reply of the queue is lost. The page shows when it was sent."""
    wants("chromium", "chromedriver", "nginx", "openssl")
    line = fax_line.Office(fax_line.Tools(), folder)
    try:
        line.start()
        with Office(folder, "anna", queue=line.recorder.port) as office, Browser(office) as browser:
            browser.load()
            browser.submits(line.tools.document, "+1 555-0111", "Contract")
            until(lambda: browser.path() == "/faxes/1", "the fax is shown")
            line.is_in("7")
            browser.shows("Sent: all 3 pages were confirmed")
        words = "-sDEVICE=tiffg3", "-r204x196", "-sPAPERSIZE=a4", "-dFIXEDMEDIA", "-dFitPage"
        fax_line.render(line.tools.document, folder / "original.tif", *words)
        original = [fax_line.image(f"{folder}/original.tif,{page}") for page in range(3)]
        received = [fax_line.image(file) for file in line.line.confirmed()]
        expect(received == original, f"{len(received)} pages are received, or other ones")
        expect_same(line.line.happened("caller dials 0015550111"), 1, "how many calls there were")
        line.recorder.look()
    finally:
        line.stop()
