"""The page of `curlew show --html` in a browser, Chromium without a window: what it shows, that it loads nothing and runs no script, and that the bytes
of a field light up where the mouse is over it. browser.py [PICTURE]; the last line says 'N passed, M failed'."""
import base64, json, os, subprocess, sys, tempfile

passed = failed = 0


def check(name, good, shown=""):
    global passed, failed
    passed, failed = (passed + 1, failed) if good else (passed, failed + 1)
    if not good:
        print("FAILED  ", name, repr(shown))


class Browser:
    """Chromium, told what to do through two pipes."""

    def __init__(self, folder):
        to_read, self.to = os.pipe()
        self.come, to_write = os.pipe()
        self.number, self.rest, self.events = 0, b"", []

        def places():
            os.dup2(to_read, 13), os.dup2(to_write, 14)
            os.dup2(13, 3), os.dup2(14, 4)
        self.process = subprocess.Popen(
            ["chromium", "--headless", "--no-sandbox", "--disable-gpu", "--remote-debugging-pipe", "--user-data-dir=" + folder,
             "--window-size=1300,800", "about:blank"],
            preexec_fn=places, pass_fds=(3, 4), stdin=subprocess.DEVNULL, stdout=subprocess.DEVNULL, stderr=subprocess.DEVNULL)
        os.close(to_read), os.close(to_write)
        page = next(t for t in self.ask("Target.getTargets")["targetInfos"] if t["type"] == "page")
        self.session = self.ask("Target.attachToTarget", targetId=page["targetId"], flatten=True)["sessionId"]

    def hear(self):
        while b"\0" not in self.rest:
            more = os.read(self.come, 65536)
            if not more:
                raise SystemExit("the browser ended")
            self.rest += more
        text, self.rest = self.rest.split(b"\0", 1)
        return json.loads(text)

    def ask(self, method, **arguments):
        self.number += 1
        message = {"id": self.number, "method": method, "params": arguments}
        if hasattr(self, "session"):
            message["sessionId"] = self.session
        os.write(self.to, json.dumps(message).encode() + b"\0")
        while True:
            heard = self.hear()
            if heard.get("id") == self.number:
                return heard["result"]
            self.events.append(heard)

    def value(self, expression):
        return self.ask("Runtime.evaluate", expression=expression, returnByValue=True)["result"].get("value")

    def end(self):
        self.ask("Browser.close")
        self.process.wait()


def page_of(*arguments):
    page = subprocess.run(["curlew", "show", "--html", *arguments], stdout=subprocess.PIPE, check=True).stdout
    open("page.html", "wb").write(page)
    return "file://" + os.path.abspath("page.html")


def open_page(browser, address):
    browser.ask("Page.navigate", url=address)
    while browser.value("document.readyState") != "complete" or browser.value("location.href") != address:
        pass


def colours(browser, selector):
    return browser.value("[...document.querySelectorAll(%s)].map(e => getComputedStyle(e).backgroundColor)" % json.dumps(selector))


names, layout = "number,name,written,oral,steno", "a6 A12 Su Su Su"
subprocess.run(["curlew", "pack", "a6 A12 Su Su", "C00417", "<b>Ada&</b>", "61", "0", "-o", "one.rec"], check=True)
subprocess.run(["curlew", "pack", layout, "C00417", "<b>Ada&</b>", "61", "52", "88", "-o", "two.rec"], check=True)
with tempfile.TemporaryDirectory() as folder:
    browser = Browser(folder)
    browser.ask("Network.enable")
    browser.ask("Page.enable")
    open_page(browser, page_of("--names", names, layout, "one.rec", "two.rec"))
    seen = browser.value("document.body.innerText")
    check("the names and values stand there", all(word in seen for word in ("number a6", "name A12", '"<b>Ada&</b>"', "not marked", "52", "88")), seen)
    check("no text became an element", browser.value("document.querySelectorAll('td b').length") == browser.value("document.querySelectorAll('section:last-child td b').length"))
    check("bytes that differ have a frame", browser.value("document.querySelectorAll('.bytes .differs').length") == 2 * 2 + 2 * 2)
    check("the bits that differ", seen.count("00110100") == 1 and browser.value("document.querySelectorAll('td b').length") == 3 + 3 + 8 + 8, seen)
    before = colours(browser, ".bytes .f3")
    place = browser.value("(r => [r.x + r.width / 2, r.y + r.height / 2])(document.querySelector('.fields .f3').getBoundingClientRect())")
    other = colours(browser, ".bytes .f2")
    browser.ask("Input.dispatchMouseEvent", type="mouseMoved", x=place[0], y=place[1])
    after = colours(browser, ".bytes .f3")
    check("the bytes of a field light up", len(after) == 9 and all(a != b for a, b in zip(before, after)), (before, after))
    check("those of others do not", colours(browser, ".bytes .f2") == other)
    if len(sys.argv) > 1:
        open(sys.argv[1], "wb").write(base64.b64decode(browser.ask("Page.captureScreenshot")["data"]))
    loaded = {e["params"]["request"]["url"] for e in browser.events if e["method"] == "Network.requestWillBeSent"}
    check("nothing else is loaded", loaded == {"file://" + os.path.abspath("page.html")}, loaded)
    check("no script", browser.value("document.scripts.length") == 0)
    browser.end()
print(f"{passed} passed, {failed} failed")
sys.exit(failed != 0)
