"""The page in chromium: what it shows of a job that runs, live, in light and dark and at 400 pixels. Its state agrees with itself as time
passes, keeps the focus, says what is waited for and what is old, and asks once."""
import base64
import os
import shutil
import threading
import time
from contextlib import contextmanager
from decimal import ROUND_HALF_UP, Decimal

from harness import BUSY, COMMAND, Service, beside, caught_up, free_port, needed, served, until
from run import Skipped
from relkvanu_service import ack, decline, deleted, savepoint

PICTURES = os.environ.get("RELKVANU_PICTURES")


class Engine(threading.Thread):
    """A small engine of a job with names: five subtasks that acknowledge each checkpoint, one late, and now and then not at all. It begins the
    job again at its tenth checkpoint."""

    def __init__(self, url):
        super().__init__(daemon=True)
        self.job = Service(url).open("orders", {"interval": 250, "timeout": 3000, "tolerable": 100, "retained": 2}, [2, 3], 0)
        self.task = self.job.begin().session()
        self.over, self.number, self.completed = threading.Event(), 0, 0

    def run(self):
        after = 0
        while not self.over.is_set():
            after, events = self.job.events(after, 1)
            for event in events:
                if event["event"] == "triggered" and not self.over.is_set():
                    self.take_part(event["id"])

    def acknowledge(self, record, subtask):
        self.task.ack(record, subtask, [self.task.name()], sizes=[1_000_000 + 20_000 * self.number], millis=250 if subtask == "1.2" else 40)

    def take_part(self, record):
        self.number += 1
        subtasks = ["0.0", "0.1", "1.0", "1.1", "1.2"]
        if self.number == 10:
            self.task = self.job.begin().session()  # which ends this record
            return
        if self.number % 9 == 4:
            self.task.decline(record, "1.1", reason="the disk is full")
            return
        slow = None if self.number % 7 == 5 else subtasks[-1]
        for subtask in subtasks[:-1]:
            self.acknowledge(record, subtask)
        if slow is None:
            return  # 1.2 never acknowledges, and the checkpoint expires
        time.sleep(0.02 * (self.number % 5))
        self.acknowledge(record, slow)
        self.completed += 1


def discards(engine):
    """As a discarder, so that the pictures show a job whose files go: all but the ones that it deletes right now."""
    while not engine.over.is_set():
        files = engine.job.take(16)
        time.sleep(0.05)
        if files:
            engine.job.calls([deleted(file) for file in files])


def browser(width, height):
    from selenium import webdriver
    from selenium.common.exceptions import WebDriverException
    from selenium.webdriver.chrome.service import Service as Driver

    options = webdriver.ChromeOptions()
    options.binary_location = shutil.which("chromium")
    for word in ["--headless=new", "--no-sandbox", "--disable-gpu", "--disable-dev-shm-usage", "--hide-scrollbars", f"--window-size={width},{height}"]:
        options.add_argument(word)
    options.set_capability("goog:loggingPrefs", {"browser": "ALL"})
    for tries in range(3):
        try:
            page = webdriver.Chrome(service=Driver(shutil.which("chromedriver"), port=free_port()), options=options)
            break
        except WebDriverException as why:
            if tries == 2:
                raise
            print(f"the browser did not start, which a busy machine may do once: {why}")
    for wait in (page.set_page_load_timeout, page.set_script_timeout):
        wait(BUSY * 30)
    return page


def texts(page, selector):
    return page.execute_script("return [...document.querySelectorAll(arguments[0])].map(it => it.textContent)", selector)


def records(page):
    """The rows of the table of records, each by the titles of the columns."""
    return page.execute_script("""
        const rows = document.getElementById("records"), heads = [...rows.closest("table").tHead.rows[0].cells].map(it => it.textContent);
        return [...rows.rows].map(row => Object.fromEntries([...row.cells].map((cell, place) => [heads[place], cell.textContent])))""")


def shown(milliseconds):
    """A time as the page shows it, if it is less than a minute."""
    if milliseconds is None:
        return ""
    if milliseconds < 1000:
        return f"{milliseconds} ms"
    return f"{Decimal(milliseconds / 1000).quantize(Decimal('0.1'), ROUND_HALF_UP)} s"  # as JavaScript rounds


def width(page, wanted, dark):
    page.execute_cdp_cmd("Emulation.setDeviceMetricsOverride", {"width": wanted, "height": 900, "deviceScaleFactor": 1, "mobile": False})
    scheme = "dark" if dark else "light"
    page.execute_cdp_cmd("Emulation.setEmulatedMedia", {"features": [{"name": "prefers-color-scheme", "value": scheme}]})


def show_term(page):
    """Asks the page for the term, which it shows until the next event. So it is read as soon as it is there."""
    return page.execute_async_script("""
        const done = arguments[0], it = document.getElementById("term");
        const seen = new MutationObserver(() => {
          if (it.textContent) {
            seen.disconnect();
            done(it.textContent);
          }
        });
        seen.observe(it, {childList: true, characterData: true, subtree: true});
        document.getElementById("do-term").click();""")


def picture(page, name, last="main"):
    """Takes a picture of the page down to an element, of a job with names with the term."""
    if not PICTURES:
        return
    time.sleep(1.5)
    has_term = not page.execute_script("return document.getElementById('do-term').hidden")
    size = """
        const it = document.documentElement, end = document.querySelector(arguments[0]).getBoundingClientRect().bottom + window.scrollY + 16;
        return {x: 0, y: 0, width: it.clientWidth, height: Math.min(it.scrollHeight, end), scale: 1}"""
    for _ in range(40):
        if has_term:
            show_term(page)
        clip = page.execute_script(size, last)
        shot = page.execute_cdp_cmd("Page.captureScreenshot", {"captureBeyondViewport": True, "format": "png", "clip": clip})
        if (not has_term or texts(page, "#term")[0]) and clip == page.execute_script(size, last):  # no event meanwhile
            break
    with open(f"{PICTURES}/{name}.png", "wb") as it:
        it.write(base64.b64decode(shot["data"]))


def contrast(page):
    """The least contrast of the text on its ground, as WCAG counts it."""
    return page.execute_script("""
        const light = (text) => {
          const [r, g, b] = text.match(/[0-9.]+/g).slice(0, 3).map(v => v / 255).map(v => v <= 0.03928 ? v / 12.92 : ((v + 0.055) / 1.055) ** 2.4);
          return 0.2126 * r + 0.7152 * g + 0.0722 * b;
        };
        const ground = (it) => {
          for (; it; it = it.parentElement) {
            const c = getComputedStyle(it).backgroundColor;
            if (!c.startsWith("rgba") || !c.endsWith(" 0)")) return c;
          }
          return "rgb(255, 255, 255)";
        };
        let least = 21;
        for (const it of document.querySelectorAll("h1,h2,h3,h4,p,dt,dd,td,th,a,span,button,li")) {
          if (!it.textContent.trim() || it.closest("[hidden]")) continue;
          const [a, b] = [light(getComputedStyle(it).color), light(ground(it))].sort((x, y) => y - x);
          least = Math.min(least, (a + 0.05) / (b + 0.05));
        }
        return least;""")


def chosen(job):
    """The record that a restart would begin from, or nothing if it has ended meanwhile."""
    choice = job.state()["choice"]
    record = job.record(choice["id"]) if choice["kind"] == "checkpoint" else {"live": None}
    return record if record["live"] else None


def look_up(page, file):
    page.execute_script("""
        document.getElementById("file").replaceChildren();
        document.getElementById("file-number").value = arguments[0];
        document.getElementById("file-form").requestSubmit();""", str(file))
    return until(lambda: "".join(texts(page, "#file")), 10)


@contextmanager
def started(width, height):
    """A browser, if one is here."""
    try:
        import selenium  # noqa: F401
    except ImportError:
        raise Skipped("python3-selenium", "it is not here") from None
    needed("chromium", "chromedriver")
    page = browser(width, height)
    try:
        yield page
    finally:
        page.quit()


def test_what_the_page_shows():
    with started(1200, 900) as page, served() as server:
        engine = Engine(server.url)
        engine.start()
        users = Service(server.url).open("users", {"interval": 3_600_000}, [1], 0)
        users.calls([savepoint()])
        try:
            told = check_job_page(page, server, engine)
        finally:
            engine.over.set()
        engine.join(COMMAND)
        return told


def compare_times(row, past, subtask):
    """A row of the table has the times of the record's acknowledgements that `GET ../history` has."""
    times = {"Took": "ended", "First": "first", "Median": "median", "99 of 100": "p99", "Slowest": "slowest"}
    wanted = {title: shown(past[name]) for title, name in times.items()}
    wanted["Took"] = shown(past["ended"] - past["triggered"])
    wanted["Slowest"] += f" by {subtask}" if subtask else ""
    assert {title: row[title] for title in times} == wanted, (row, past)


def wide(page):
    """How many pixels the page takes from the left to the right."""
    return page.execute_script("return document.documentElement.scrollWidth")


def check_job_page(page, server, engine):
    job = engine.job
    until(lambda: engine.completed >= 10, 30)
    files = job.take(3)
    job.calls([deleted(file) for file in files[:2]])
    page.get(f"{server.url}/#/jobs/orders")
    until(lambda: texts(page, "#jobs a") == ["orders running", "users running"], 20)
    until(lambda: len(texts(page, "#records tr")) >= 10, 20)
    first = texts(page, '[data-fact="Calls made"]')[0]

    # live, without reloading: the number of calls rises, and the newest record of now comes
    until(lambda: int(texts(page, '[data-fact="Calls made"]')[0]) > int(first) + 10, 20)
    newest = job.records()[0]["id"]
    shown = until(lambda: (it := int(texts(page, "#records tr td:first-child")[0])) >= newest and it, 20)
    assert shown <= job.records()[0]["id"], shown

    # each row says what the API says
    rows = records(page)
    told = {str(record["id"]): record for record in job.records()}
    past = {str(record["id"]): record for record in job.history(1000)}
    numbers = [int(row["No"]) for row in rows]
    assert numbers == sorted(numbers, reverse=True), numbers
    hows = set()
    for row in rows[3:]:
        record = told[row["No"]]
        how = record["why"] if record["how"] == "declined" else record["how"]
        assert row["Kind"] == record["kind"] and row["Ended"] == how and row["Acks"] == f"{record['acks']} of 5", (row, record)
        hows.add(record["how"])
        compare_times(row, past[row["No"]], record["slowest"])
        if record["how"] == "expired":
            assert row["Reason"] == f"lacked {', '.join(record['missing'])}" and "1.2" in record["missing"], (row, record)
        if record["how"] == "completed":
            assert record["slowest"] == "1.2" and row["Reason"] == "" and row["Snapshots"] == "in 250 ms", (row, record)
        if record["how"] == "declined":
            assert row["Ended"] == "declined by 1.1" and row["Reason"] == "the disk is full", row
    assert {"completed", "expired", "declined"} <= hows, hows
    bars = page.execute_script("const c = Chart.getChart('durations').data; return c.labels.map((l, i) => [l, c.datasets[0].data[i]])")
    assert len(bars) >= 10, bars
    known = {label: record for label, record in told.items() if record["finished"]}
    compared = [(label, seconds) for label, seconds in bars if label in known]
    assert len(compared) >= 8, (bars, known)
    for label, seconds in compared:
        assert abs(seconds - (known[label]["finished"] - known[label]["started"]) / 1000) < 0.002, (label, seconds)
    lines = page.execute_script("return Chart.getChart('counts').data.datasets.map(d => [d.label, d.data.length])")
    assert [line[0] for line in lines] == ["in use", "waiting", "taken"] and lines[0][1] >= 1, lines

    # a record whose subtask is missing
    until(lambda: any("missing: 1.2" in text for text in texts(page, "#pending li")), 30, 0.05)

    # files: one that was deleted says why, one in use by whom
    until(lambda: (it := job.file(files[1])["history"]) and it["deleted"])
    text = look_up(page, files[0])
    # by the end of its record, as the API says
    why = job.file(files[0])["history"]["why"]
    assert "0 uses" in text and "Written" in text and why and f"Why: {why}" in text and "Deleted" in text, (text, why)
    until(lambda: texts(page, "#taken button") == [str(files[2])], told=lambda: texts(page, "#taken"))
    until(lambda: set(texts(page, "#deleted button")) == {str(file) for file in files[:2]}, told=lambda: texts(page, "#deleted"))
    used = until(lambda: chosen(job), 20)
    file = used["live"]["acks"][0]["files"][0]
    until(lambda: job.file(file)["history"])
    text = look_up(page, file)
    assert f"File {file}: " in text and "Written" in text, text
    assert "No call has named it" in look_up(page, 999999999)

    # nothing that the policy refuses, no error
    wrong = [entry["message"] for entry in page.get_log("browser") if entry["level"] == "SEVERE"]
    assert not wrong, wrong
    if PICTURES:
        beside(discards, engine)
        time.sleep(10)
    look_up(page, files[0])
    assert show_term(page).startswith("The term is 3:")
    picture(page, "service-page")
    picture(page, "service-page-top", "section:has(#durations)")
    least = [contrast(page)]
    width(page, 1200, True)
    page.refresh()
    until(lambda: len(texts(page, "#records tr")) >= 10, 20)
    least.append(contrast(page))
    picture(page, "service-page-dark")
    width(page, 400, False)
    page.refresh()
    until(lambda: len(texts(page, "#records tr")) >= 10, 20)
    time.sleep(0.5)
    # the charts come to their new width a moment after the rows are there
    until(lambda: wide(page) <= 400, 10, told=lambda: f"{wide(page)} pixels wide at 400")
    least.append(contrast(page))
    picture(page, "service-page-narrow")
    assert min(least) >= 4.5, least
    page.get(f"{server.url}/#/jobs/users")
    until(lambda: texts(page, "#job-name") == ["users"] and any("savepoint 1" in text for text in texts(page, "#pending li")), 20)

    # the service goes away and comes back
    server.kill()
    until(lambda: texts(page, "#status")[0].startswith("the service does not answer"), 20)
    server.start()
    until(lambda: texts(page, "#status")[0].startswith("live"), 20)
    return f"{len(rows)} records, {len(bars)} bars, least contrast {min(least):.1f}, 400 pixels wide at 400"


RESTING = {"interval": 3_600_000, "timeout": 7_200_000, "tolerable": 0, "retained": 2}


def evaluated(page, script):
    """What a script returns that imports the page's own modules."""
    return page.execute_async_script(f"""
        const done = arguments[arguments.length - 1];
        Promise.all([import("/views.js"), import("/api.js")]).then(([views, api]) => (async () => {{ {script} }})()).then(done, (error) => done(String(error)));""")


def opened(server):
    """A job with a savepoint that is kept, one that was declined, and one that is pending."""
    job = Service(server.url).open("orders", RESTING, [2])
    job.calls([savepoint()])
    job.calls([ack(1, "0.0", [1]), ack(1, "0.1", [2, 3])])
    job.calls([savepoint()])
    job.calls([decline(2, "0.1")])
    job.calls([savepoint()])
    job.calls([ack(3, "0.0", [4])])
    return job


def test_the_page_agrees_with_itself():
    with started(1200, 900) as page, served() as server:
        job = opened(server)
        caught_up(job)  # so the first look has the last acknowledgement
        page.get(f"{server.url}/#/jobs/orders")
        until(lambda: len(texts(page, "#records tr")) == 3, 20)
        rows = records(page)
        # who declined, what the pending one lacks and for how long
        assert [(row["No"], row["Ended"]) for row in rows[:2]] == [("3", "pending"), ("2", "declined by 0.1")], rows
        assert rows[0]["Took"].endswith(" so far") and rows[0]["Reason"] == "waits for 0.1" and rows[0]["Acks"] == "1 of 2", rows
        assert [text.split(",")[0] for text in texts(page, "#savepoints li")] == ["savepoint 1"], texts(page, "#savepoints li")
        # the chart ends with the state that the facts have, at its moment, and so does its table
        told = page.execute_script("""
            const facts = (name) => Number(document.querySelector(`[data-fact="${name}"]`).textContent);
            const lines = Chart.getChart('counts').data.datasets.map(d => d.data[d.data.length - 1]);
            return {facts: [facts("Files in use"), facts("Files waiting"), facts("Files taken")], ends: lines.map(l => l.y), at: lines.map(l => l.x),
                    row: [...document.querySelector("#count-rows tr").children].slice(1).map(c => Number(c.textContent))}""")
        assert told["facts"] == told["ends"] == told["row"] == [4, 0, 0], told
        assert abs(told["at"][0] - job.state()["now"]) < 60_000, told
        ticks_together(page)
        shows_the_focus(page)
        asks_once(page, job)
        server.kill()
        until(lambda: page.execute_script("return document.body.classList.contains('old')"), 20)
        assert "what is shown is of" in texts(page, "#status")[0], texts(page, "#status")
        server.start()
        until(lambda: not page.execute_script("return document.body.classList.contains('old')"), 20)


def ticks_together(page):
    """While nothing is told, the time of a pending record goes on in its list and in its row of the table, which say the same."""
    def times():
        return page.execute_script("""
            const said = (selector, pattern) => document.querySelector(selector).textContent.match(pattern)[1];
            return [said("#pending li", /for (.*?);/), said("#records td[data-since]", /(.*) so far/)]""")

    def is_kept():
        page.execute_script("window.before = document.querySelector('#records tr')")
        _, was = times()
        until(lambda: times()[1] != was, 5, 0.02)
        return page.execute_script("return window.before === document.querySelector('#records tr')")

    seen, began = set(), time.monotonic()
    while (passed := time.monotonic() - began) < 4 or len(seen) < 3 and passed < BUSY * 4:
        listed, tabled = times()
        assert listed == tabled, (listed, tabled)
        seen.add(tabled)
        time.sleep(0.2)
    assert len(seen) >= 3, seen
    # a tick leaves the row, so no click on it is lost; a look may make it anew
    assert any(is_kept() for _ in range(3)), "each tick replaces the row"


def shows_the_focus(page):
    """A link keeps the focus while the page shows what is new."""
    page.execute_script("document.querySelector('#jobs a').focus()")
    looks = page.execute_script("return document.querySelector('#moment').textContent")
    until(lambda: page.execute_script("return document.querySelector('#moment').textContent") != looks, 10)
    time.sleep(1)
    assert page.execute_script("return document.activeElement.matches('#jobs a')"), "the focus was lost"


def asks_once(page, job):
    """While nothing happens the page asks for nothing. For what happens it asks once: the stream tells it."""
    def asked():
        return page.execute_script("return performance.getEntriesByType('resource').map(it => new URL(it.name).pathname).filter(it => it.startsWith('/v1/'))")

    page.execute_script("performance.clearResourceTimings()")
    time.sleep(3)
    assert len(asked()) <= 1, asked()  # the seldom look for other jobs
    page.execute_script("performance.clearResourceTimings()")
    before = int(texts(page, '[data-fact="Calls made"]')[0])
    job.calls([ack(3, "0.0", [4]), savepoint()])
    until(lambda: int(texts(page, '[data-fact="Calls made"]')[0]) == before + 1, 5)
    assert set(asked()) == {"/v1/view/orders"} and len(asked()) <= 3, asked()


def test_what_the_page_says():
    with started(1200, 900) as page, served() as server:
        opened(server)
        page.get(f"{server.url}/#/jobs/orders")
        until(lambda: texts(page, "#job-name") == ["orders"], 20)
        told = evaluated(page, """
            const job = {mode: "running", due: 5, now: 9, seq: 293, settings: {pause: 0, at_once: 1}, choice: {kind: "checkpoint", id: 4},
                         files: {in_use: 0, waiting: 0, taken: 0}, bytes: {in_use: 0, waiting: 0, taken: 0, files: 0}, shape: [1], last_completed: null, image: null};
            const due = (job, pending) => views.facts(job, pending)[2].querySelector("dd").textContent;
            const checkpoint = {id: 57, kind: "checkpoint"};
            return {due: [due(job, []), due(job, [checkpoint]), due({...job, due: 2009}, [checkpoint]), due({...job, mode: "failed"}, [])],
                    hints: [views.hint(job), views.hint({...job, mode: "failed"})],
                    upto: [views.progress(293, 293), views.progress(240, 293), views.lags(240, 293), views.lags(100, 293)]}""")
        assert told["due"] == ["at the next tick", "when checkpoint 57 ends", "in 2.0 s", "not while it is failed"], told
        assert told["hints"][0] == "" and "call restore" in told["hints"][1] and "from checkpoint 4" in told["hints"][1], told
        assert told["upto"][0] == "" and "240 of 293 calls" in told["upto"][1] and told["upto"][2:] == [False, True], told
        # a process that stands by names the leader, as its answer does
        page.execute_script("""window.fetch = async () => new Response('{"error": "another process leads"}',
            {status: 503, headers: {"relkvanu-leader": "http://10.0.0.7:7780"}})""")
        until(lambda: not page.execute_script("return document.getElementById('leader').hidden"), 20)
        link = page.execute_script("const it = document.getElementById('leader-link'); return [it.textContent, it.href]")
        assert link == ["http://10.0.0.7:7780", "http://10.0.0.7:7780/"], link
        heads = page.execute_script("return [...document.querySelectorAll('th')].map(it => it.scope)")
        assert heads and set(heads) == {"col"}, heads
