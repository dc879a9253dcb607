"""What a user does on the page: the calls that it makes, after a question, with a token, by the keyboard; a record's times, and older
records."""
import json
import time

from harness import Service, caught_up, how_ended, served, served_job, until
from relkvanu_service import ack, decline, savepoint
from test_page import contrast, picture, records, shown, started, texts

SETTINGS = {"interval": 3_600_000, "timeout": 7_200_000, "tolerable": 1000}
READ, WRITE = "r" * 20, "w" * 20
TOKENS = [f"read {READ}", f"write {WRITE}"]
ENTER, ESCAPE, SPACE = "\ue007", "\ue00c", "\ue00d"  # as the protocol of WebDriver has the keys


def focus(page):
    return page.execute_script("return document.activeElement.id")


def keys(page, *pressed):
    page.switch_to.active_element.send_keys(*pressed)


def keys_at(page, field, *pressed):
    page.execute_script("document.getElementById(arguments[0]).focus()", field)
    keys(page, *pressed)


def opened(page, button):
    """Opens a question by the keyboard."""
    from selenium.common.exceptions import ElementNotInteractableException, StaleElementReferenceException

    def is_opened():
        try:
            page.execute_script("arguments[0].focus()", page.find_element("css selector", button))
            keys(page, ENTER)
        except (ElementNotInteractableException, StaleElementReferenceException):
            return False  # a question that was closed gives the focus back a moment later, and a new state replaces the button
        # a button that was replaced between its focus and the key has lost the key: it is pressed again
        end = time.monotonic() + 2
        while not is_asking(page) and time.monotonic() < end:
            time.sleep(0.05)
        return is_asking(page)

    until(is_opened, 5)


def is_asking(page):
    return page.execute_script("return document.getElementById('ask').open")


def asked_call(page):
    return page.execute_script("return document.getElementById('ask-call').textContent")


def property_of(page, field, name):
    return page.execute_script("return document.getElementById(arguments[0])[arguments[1]]", field, name)


def agree(page):
    """Presses the button of a question, which makes its call."""
    keys_at(page, "ask-yes", ENTER)
    until(lambda: not is_asking(page), 10, told=lambda: texts(page, "#ask-wrong"))


def look_at(page, number):
    page.execute_script("document.getElementById('record-number').value = arguments[0]; document.getElementById('record-form').requestSubmit()", number)


def nameless(page):
    """The fields and buttons that a screen reader can't name, and labels that name nothing."""
    return page.execute_script("""
        const named = (it) => it.labels?.length > 0 || it.getAttribute("aria-label") || it.textContent.trim() !== "";
        const lost = [...document.querySelectorAll("input, select, button, dialog, [role=region], [role=group]")].filter((it) =>
          !named(it) && !document.getElementById(it.getAttribute("aria-labelledby")));
        const wrong = [...document.querySelectorAll("label[for]")].filter((it) => !document.getElementById(it.htmlFor));
        const ids = [...document.querySelectorAll("[id]")].map((it) => it.id);
        return [...lost, ...wrong].map((it) => it.outerHTML).concat(ids.filter((id, place) => ids.indexOf(id) !== place));""")


def test_a_user_acts_by_the_keyboard():
    with started(1200, 1000) as page, served(tokens=TOKENS) as server:
        return act_by_keyboard(page, server)


def act_by_keyboard(page, server):
    job = Service(server.url, token=WRITE).open("orders", SETTINGS, [1, 2])
    page.get(f"{server.url}/#/jobs/orders")
    until(lambda: not property_of(page, "token", "hidden"), 10)
    assert "a token is needed" in texts(page, "#status")[0]
    keys_at(page, "token-text", "none of its tokens", ENTER)
    until(lambda: texts(page, "#status") == ["the service does not take this token"], 10)
    page.execute_script("document.getElementById('token-text').value = ''; document.getElementById('token-text').focus()")
    keys(page, READ, ENTER)
    until(lambda: texts(page, "#job-name") == ["orders"], 10)
    assert nameless(page) == [], nameless(page)

    # a savepoint: the request is shown, a read token is not enough, and a write token makes it
    opened(page, "#do-savepoint")
    assert asked_call(page) == 'POST /v1/jobs/orders/calls\n{\n "calls": [\n  {\n   "call": "savepoint"\n  }\n ]\n}', asked_call(page)
    assert focus(page) == "ask-yes" and nameless(page) == []
    keys(page, ENTER)
    until(lambda: focus(page) == "ask-token", 5)
    assert "write token" in texts(page, "#ask-wrong")[0] and job.state()["seq"] == 2
    picture(page, "service-page-asks")
    keys(page, WRITE, ENTER)
    until(lambda: not is_asking(page), 5)
    assert texts(page, "#done") == ["Savepoint 1 is triggered, as call 3."], texts(page, "#done")
    until(lambda: focus(page) == "do-savepoint", 5)
    assert [entry["line"].split()[0] for entry in job.log()] == ["fence", "reserve", "savepoint"]

    # what can't be taken back begins at the other button, and Escape does nothing
    job.calls([ack(1, "0.0", [1]), ack(1, "1.0", [2]), ack(1, "1.1", [3])])
    until(lambda: texts(page, "#savepoints button"), 10)
    opened(page, "#savepoints button")
    assert focus(page) == "ask-no" and "can't be taken back" in texts(page, "#ask-question")[0] and '"id": 1' in asked_call(page), asked_call(page)
    keys(page, ESCAPE)
    until(lambda: not is_asking(page), 5)
    opened(page, "#savepoints button")
    keys(page, ENTER)
    until(lambda: not is_asking(page), 5)
    assert job.state()["seq"] == 6

    # a restore from the savepoint, in another shape
    opened(page, "#do-restore")
    assert '"from": "latest"' in asked_call(page) and "shape" not in asked_call(page), asked_call(page)
    page.execute_script("const it = document.getElementById('restore-from'); it.value = '1'; it.dispatchEvent(new Event('input', {bubbles: true}))")
    keys_at(page, "restore-shape", "1 3")
    assert '"from": 1' in asked_call(page) and "3" in asked_call(page).split("shape")[1], asked_call(page)
    agree(page)
    assert "begins again from savepoint 1" in texts(page, "#done")[0] and job.state()["shape"] == [1, 3], job.state()["shape"]

    # an answer that is lost: the second try makes no second call
    page.execute_script("""
        const real = window.fetch;
        window.fetch = async (...given) => {
          if (given[1]?.method !== "POST") return real(...given);
          window.fetch = real;
          await real(...given);
          throw new TypeError("the line is cut");
        };""")
    opened(page, "#do-savepoint")
    keys(page, ENTER)
    until(lambda: "made or not" in texts(page, "#ask-wrong")[0], 5)
    until(lambda: not property_of(page, "ask-yes", "disabled"), 5)
    agree(page)
    assert [entry["line"].split()[0] for entry in job.log()].count("savepoint") == 2, list(job.log())

    # a disposal, and one that is refused
    job.call({"call": "decline", "id": 2, "subtask": "0.0"})
    until(lambda: texts(page, "#savepoints button"), 10)
    opened(page, "#savepoints button")
    keys_at(page, "ask-yes", ENTER)
    until(lambda: texts(page, "#ask-wrong")[0] or not is_asking(page), 5)
    first = texts(page, "#ask-wrong")[0] or texts(page, "#done")[0]
    assert "refuses" in first or "disposed" in first, first
    if is_asking(page):
        keys(page, ESCAPE)

    # the end
    opened(page, "#do-cancel")
    assert focus(page) == "ask-no"
    agree(page)
    until(lambda: job.state()["mode"] == "cancelled", 5)
    until(lambda: property_of(page, "do-savepoint", "disabled"), 10)
    # the job goes, though its files are left
    opened(page, "#do-delete")
    assert asked_call(page) == "DELETE /v1/jobs/orders", asked_call(page)
    keys_at(page, "ask-yes", ENTER)
    until(lambda: "files of the job are left" in texts(page, "#ask-wrong")[0], 5)
    keys_at(page, "delete-abandon", SPACE)
    assert asked_call(page) == "DELETE /v1/jobs/orders?abandon=1", asked_call(page)
    keys_at(page, "ask-yes", ENTER)
    until(lambda: not is_asking(page) and texts(page, "#done") == ["Job orders is deleted."], 5)
    until(lambda: not property_of(page, "no-jobs", "hidden"), 10)
    wrong = [entry["message"] for entry in page.get_log("browser") if entry["level"] == "SEVERE" and "status of 40" not in entry["message"]]
    assert not wrong, wrong


def test_a_stop_and_older_checkpoints():
    with started(1200, 1000) as page, served() as server:
        return stopped_and_back(page, server, Service(server.url).open("orders", {**SETTINGS, "retained": 3}, [1]))


def test_settings_are_changed():
    """The form has the settings of now, the request those that differ, and what is refused stays on the page with its reason."""
    with started(1200, 1000) as page, served() as server:
        return settings_changed(page, server, Service(server.url).open("orders", SETTINGS, [1]))


def settings_changed(page, server, job):
    def typed(field, text):
        page.execute_script("const it = document.getElementById(arguments[0]); it.focus(); it.select()", field)
        keys(page, text)

    page.get(f"{server.url}/#/jobs/orders")
    opened(page, "#do-settings")
    assert nameless(page) == [], nameless(page)
    before = job.state()["settings"]
    assert property_of(page, "set-interval", "value") == str(before["interval"])
    typed("set-interval", "30000")
    typed("set-retained", "0")
    keys_at(page, "set-keep", SPACE)
    wanted = {"interval": 30_000, "retained": 0, "keep_on_cancel": not before["keep_on_cancel"]}
    method, body = asked_call(page).split("\n", 1)
    assert (method, json.loads(body)) == ("PATCH /v1/jobs/orders/settings", wanted), asked_call(page)
    keys_at(page, "ask-yes", ENTER)
    until(lambda: "retained" in texts(page, "#ask-wrong")[0], 10, told=lambda: texts(page, "#ask-wrong"))
    assert job.state()["settings"] == before
    typed("set-retained", "2")
    keys(page, ENTER)
    until(lambda: not is_asking(page), 10, told=lambda: texts(page, "#ask-wrong"))
    assert texts(page, "#done") == ["The settings are changed, as call 3."], texts(page, "#done")
    assert job.state()["settings"] == {**before, **wanted, "retained": 2}
    until(lambda: "30" in texts(page, "[data-fact='Interval']")[0], 10, told=lambda: texts(page, "[data-fact='Interval']"))


def stopped_and_back(page, server, job):
    def are(*wanted):
        """What the buttons of a stop, a beginning, a restore and a checkpoint may be pressed, and what the job does."""
        ids = ["do-stop", "do-begin", "do-restore", "do-checkpoint"]
        until(lambda: [page.execute_script("return !document.getElementById(arguments[0]).disabled", one) for one in ids] == list(wanted[1:]), 10)
        until(lambda: texts(page, "[data-fact='Mode']") == [wanted[0]] == texts(page, "#jobs .mode"), 10)

    def done(button, said_then):
        opened(page, button)
        assert nameless(page) == [], nameless(page)
        agree(page)
        assert texts(page, "#done") == [said_then], texts(page, "#done")

    page.get(f"{server.url}/#/jobs/orders")
    are("running", True, False, True, True)
    done("#do-stop", "The job stops: savepoint 1 is triggered, as call 3.")
    assert asked_call(page) == "POST /v1/jobs/orders/stop\n{}", asked_call(page)
    are("stopping", False, False, True, False)
    assert "waits for the acknowledgements of savepoint 1" in texts(page, "#hint")[0]
    job.call(ack(1, "0.0", [1]))
    are("stopped", False, True, False, False)
    assert "has stopped at savepoint 1" in texts(page, "#hint")[0] and texts(page, "[data-fact='Next is due']") == ["not while it is stopped"]
    assert contrast(page) >= 4.5
    done("#do-begin", "The job begins again from savepoint 1, as call 6. The term is 3.")
    are("running", True, False, True, True)
    # a stop that fails
    job.stop_job()
    job.call(decline(2, "0.0"))
    until(lambda: "savepoint 2 has ended (declined)" in texts(page, "#hint")[0], 10)
    # the older checkpoints that are retained, and the word of consent
    for number, name in zip((3, 4, 5), job.reserve(3)):
        job.checkpoint()
        job.call(ack(number, "0.0", [name]))
    until(lambda: texts(page, "[data-fact='Would restart']") == ["from checkpoint 5"], 10)
    opened(page, "#do-restore")
    offered = texts(page, "#restore-from option")
    assert offered == ["the latest: checkpoint 5", "savepoint 1", "checkpoint 4, an older one", "checkpoint 3, an older one"], offered
    hidden = "return document.getElementById('restore-consent').parentElement.hidden"
    assert page.execute_script(hidden) and nameless(page) == []
    page.execute_script("const it = document.getElementById('restore-from'); it.selectedIndex = 3; it.dispatchEvent(new Event('input', {bubbles: true}))")
    assert not page.execute_script(hidden) and '"checkpoint": 3' in asked_call(page) and '"accept_published": false' in asked_call(page), asked_call(page)
    keys_at(page, "ask-yes", ENTER)
    until(lambda: "not taken back" in texts(page, "#ask-wrong")[0], 10)
    keys_at(page, "restore-consent", SPACE)
    assert '"accept_published": true' in asked_call(page), asked_call(page)
    agree(page)
    assert texts(page, "#done")[0].startswith("The job begins again from savepoint 6"), texts(page, "#done")
    assert job.state()["choice"] == {"kind": "savepoint", "id": 6}


def test_a_record_and_older_ones():
    with started(1200, 1000) as page, served_job("orders", {**SETTINGS, "timeout": 6500}, [2]) as (server, job):
        for number in range(1, 61):
            acks = [ack(number, "0.0", [number], sizes=[1500]), ack(number, "0.1", sizes=[])]
            job.calls([savepoint(), *([decline(number, "0.1", reason="no disk" if number == 57 else None)] if number % 2 else acks)])
        job.calls([savepoint()])
        for index in (0, 1):
            time.sleep(0.1)
            job.calls([ack(61, f"0.{index}", [100 + index], [2], sizes=[2_500_000])])
        job.calls([savepoint(), ack(62, "0.0")])
        caught_up(job)
        page.get(f"{server.url}/#/jobs/orders")
        return check_records_page(page, job)


def first_of(page):
    cells = texts(page, "#records td:first-child")
    return (cells or [""])[0], len(cells)


def pressed(page, selector):
    page.execute_script("arguments[0].click()", page.find_element("css selector", selector))


def chosen(page, name, value):
    page.execute_script("const it = document.getElementById(arguments[0]); it.value = arguments[1]; it.dispatchEvent(new Event('change'))", name, value)


# What the page asks for records comes a second later, and `asked` counts it. The look that comes after 15 s by itself never comes.
LATE = """
window.asked = 0;
window.atOnce = window.fetch;
window.timer = window.setTimeout;
window.setTimeout = (what, time) => (time >= 15000 ? 0 : window.timer(what, time));
window.fetch = async (...what) => {
  if (what[0].includes("/records?")) {
    window.asked += 1;
    await new Promise((done) => setTimeout(done, 1000));
  }
  return window.atOnce(...what);
};
"""


def check_a_choice_in_between(page):
    """A choice that comes while the page is reading what was chosen before brings a look of its own. (What the stream tells would bring one too.)"""
    page.execute_script(LATE)
    chosen(page, "how", "declined")
    until(lambda: page.execute_script("return window.asked") >= 1, 10)
    chosen(page, "how", "restored")  # as none did
    until(lambda: first_of(page) == ("", 0), 10)
    page.execute_script("window.fetch = window.atOnce; window.setTimeout = window.timer")
    chosen(page, "how", "")
    until(lambda: first_of(page) == ("62", 25), 10)


def check_records_page(page, job):
    # pages, back and forth
    until(lambda: first_of(page) == ("62", 25), 10)
    pressed(page, "#older")
    until(lambda: first_of(page) == ("37", 25), 10)
    pressed(page, "#older")
    until(lambda: first_of(page) == ("12", 12), 10)
    assert page.execute_script("return [document.getElementById('older').disabled, document.getElementById('newer').disabled]") == [True, False]
    pressed(page, "#newer")
    until(lambda: first_of(page) == ("37", 25), 10)
    # a search
    chosen(page, "how", "declined")
    until(lambda: first_of(page) == ("59", 25), 10)
    pressed(page, "#older")
    until(lambda: first_of(page) == ("9", 5), 10)
    chosen(page, "kind", "checkpoint")
    until(lambda: first_of(page) == ("", 0) and not property_of(page, "no-records", "hidden"), 10)
    chosen(page, "kind", "")
    chosen(page, "how", "")
    until(lambda: first_of(page)[1] == 25, 10)
    # another limit, from the newest on
    for limit, count in (("10", 10), ("100", 62), ("25", 25)):
        chosen(page, "most", limit)
        until(lambda wanted=count: first_of(page) == ("62", wanted), 10)
    reasons = {row["No"]: (row["Ended"], row["Reason"]) for row in records(page)}
    assert reasons["57"] == ("declined by 0.1", "no disk") and reasons["59"][1] == reasons["58"][1] == "", reasons
    # one record: why, how large, and when each subtask acknowledged
    row = page.find_element("css selector", "#records tr[data-record='61'] button")
    pressed(page, "#records tr[data-record='61'] button")
    until(lambda: focus(page) == "record-title", 10)
    of_61 = records(page)[1]
    assert row.text == of_61["No"] == "61" and (of_61["Size"], of_61["New"]) == ("5.0 MB", "5.0 MB"), of_61
    log = [entry["at"] for entry in job.log() if entry["line"].split()[2:5:2] == ["ack", "61"]]
    started = job.record(61)["history"]["started"]
    rows = page.execute_script("return [...document.querySelectorAll('#acks tr')].map(it => [...it.children].map(c => c.textContent))")
    assert [row[:2] for row in rows] == [["0.1", shown(log[1] - started)], ["0.0", shown(log[0] - started)]], (rows, log, started)
    times = dict(zip(texts(page, "#record dt"), texts(page, "#record dd")))
    assert times == {"First": rows[1][1], "Median": rows[1][1], "99 of 100": rows[0][1], "Slowest": rows[0][1]}, times
    assert texts(page, "#record-size") == ["Its files have 5.0 MB, of which 5.0 MB are new."], texts(page, "#record-size")
    picture(page, "service-page-record")
    for number, why in (("59", "Subtask 0.1 declined it."), ("57", "Subtask 0.1 declined it: no disk"), ("60", "Each subtask acknowledged it, and it is kept.")):
        look_at(page, number)
        until(lambda said=why: texts(page, "#record-why") == [said], 10, told=lambda: texts(page, "#record-why"))
    # the last one expires
    until(lambda: how_ended(job.record(62)) == "expired", 10)
    look_at(page, "62")
    why = "It expired: within its timeout of 6.5 s there was no acknowledgement of 0.1."
    until(lambda: texts(page, "#record-why") == [why], 10, told=lambda: texts(page, "#record-why"))
    look_at(page, "999")
    until(lambda: "no record 999" in "".join(texts(page, "#record")), 10)
    least = contrast(page)
    assert least >= 4.5 and nameless(page) == [], (least, nameless(page))
    caught_up(job)
    time.sleep(3)  # the stream has told of that: each second at most
    check_a_choice_in_between(page)


def test_the_term_is_shown_when_it_is_asked_for():
    with started(1200, 1000) as page, served(tokens=TOKENS) as server:
        job = Service(server.url, token=WRITE).open("orders", SETTINGS, [1], 0)
        page.get(f"{server.url}/#/jobs/orders")
        until(lambda: not property_of(page, "token", "hidden"), 10)
        keys_at(page, "token-text", READ, ENTER)
        until(lambda: texts(page, "#job-name") == ["orders"], 10)
        assert texts(page, "#term") == [""] and texts(page, "[data-fact='Next name']") == ["1"] and nameless(page) == []

        def asked():
            keys_at(page, "do-term", ENTER)
            until(lambda: texts(page, "#term") != [""], 10)
            return texts(page, "#term")[0]

        assert asked() == "The term needs a write token."
        page.execute_script(f"sessionStorage.setItem('relkvanu-token', '{WRITE}'); document.getElementById('term').textContent = ''")
        assert asked().startswith("The term is 1:")
        # a restore by somebody else ends it, so the page does not say it any more; one of the page says the next
        assert job.begin().term == 2
        until(lambda: texts(page, "#term") == [""], 20)
        opened(page, "#do-restore")
        agree(page)
        assert texts(page, "#done")[0].endswith("The term is 3."), texts(page, "#done")
