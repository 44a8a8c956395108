"""Scenes of the page in which keys change, the own one, over tabs and browsers that stop at each step, and those of others; and of who leaves."""
import copy
import json
import pathlib
import urllib.error

from office import ALL_ANSWERED, BROWSER, ENTER, IS_LISTED, IS_TOLD, KEYS, add, ask, expect, know, new_board, tell
from page_words import DEVICE, IS_SHOWN, NOTHING_IS_PUT, add_person_unheard, heal, press, type_into
from relay import LOSES_ANSWERS, LOSES_POSTS
from webdriver import STRANGER, Browser

IS_IN = "return document.getElementById('count')?.textContent && document.getElementById('who').textContent"
IN_SIGHT = "const { top, bottom } = document.getElementById(arguments[0]).getBoundingClientRect(); return top >= document.querySelector('header').offsetHeight && bottom <= innerHeight"
LOOKED = "dispatchEvent(new Event('focus')); "
# Whether so many changes that wait stand on the device.
ARE_KEPT = """return new Promise((done) => {
    indexedDB.open("taskboard").onsuccess = ({ target }) => {
        target.result.transaction("changes").objectStore("changes").getAll().onsuccess = ({ target }) => done(target.result.filter(({ state }) => state === "waiting").length === arguments[0]);
    };
});"""
# What a tab is hindered in from here on, as if it had stopped there: to write the new key into its session, or the device after that. `stopped`
# says that it came so far.
HINDER = """const [after] = arguments;
window.stopped = false;
const stop = () => {
    window.stopped = true;
    throw new Error("the tab stops here");
};
const hinder = (kind, name, isThere) => {
    const act = kind.prototype[name];
    kind.prototype[name] = function (...words) {
        if (isThere(this, words)) stop();
        return act.apply(this, words);
    };
};
"""
SESSION_STAYS = HINDER + "hinder(Storage, 'setItem', (_, [name]) => name === 'taskboard.session');"
DEVICE_STAYS = HINDER + """const hasNewKey = () => [sessionStorage, localStorage].some((place) => place.getItem("taskboard.session")?.includes(after));
for (const name of ["put", "delete"]) hinder(IDBObjectStore, name, (store) => store.name === "changes" && hasNewKey());"""
# Where a change of the own key stops, each with what becomes of its message and in what the tab is hindered then.
STEPS = {
    "before it is sent": (LOSES_POSTS, ""),
    "before its answer": (LOSES_ANSWERS, ""),
    "before the session": (None, SESSION_STAYS),
    "before the device": (None, DEVICE_STAYS),
    "at the end": (None, ""),
}
# Those after which a session that is lost with its tab is told by one of the two keys.
LOST = ("before it is sent", "before its answer")
# What keeps a change from the device: its key isn't hidden yet, or the device takes nothing more.
HIDING_STAYS = "SubtleCrypto.prototype.deriveKey = () => { window.stopped = true; return new Promise(() => {}); };"


def is_refused(name, key):
    """Whether the server doesn't take this key of someone."""
    known, KEYS[name] = KEYS[name], key
    try:
        ask("/me", who=name)
    except urllib.error.HTTPError as refused:
        expect(f"the answer to {name}", 401, refused.code)
        return True
    finally:
        KEYS[name] = known
    return False


def expect_key(name, before, after):
    """The key of someone is another than before."""
    expect(f"keys of {name} that are refused", [True, False], [is_refused(name, key) for key in (before, after)])
    KEYS[name] = after


def newcomer(name):
    """A person of whom no other scene knows, with a board of that person: its number."""
    KEYS[name] = f"{name}-key-0"
    know(name)
    return tell("/boards", who=name, title=f"Board of {name}")["board"]


def described(board, who):
    return [task["description"] for task in json.loads(ask(f"/boards/{board}/export", who=who))]


def sign_in(office, name, key, remembers=False):
    browser = office.browser
    browser.wait(IS_SHOWN, "#sign-in-form")
    browser.run("document.getElementById('remember').checked = arguments[0]; ['name', 'key'].forEach((id) => (document.getElementById(id).value = ''))", remembers)
    browser.type("#name", name)
    browser.type("#key", key + ENTER)


def dismiss(browser):
    """Throws away what the page tells."""
    browser.run("document.querySelector('#notices button.quiet').click()")
    # (what earlier scenes imported may still be told)
    browser.wait("return document.querySelectorAll('#notices .refused, #notices .asks').length === 0")


def load(office, board):
    """Loads the page anew."""
    office.browser.open("about:blank")
    office.browser.open(f"{office.address}#/{board}/tasks")


def change_key(browser, before, after):
    browser.click("#account")
    browser.wait(IS_SHOWN, "#account-form")
    browser.type("#key-before", before)
    browser.type("#key-after", after + ENTER)


def own_key(office):
    """The own key changes over a broken line: what is ahead of it and behind it goes out, no key is readable, and a tab beside goes on."""
    browser, relay = office.browser, office.relay
    board, before, after = newcomer("cora"), "cora-key-0", "cora-key-1"
    office.begin(board, "cora")
    first = browser.call("GET", "/window")
    browser.new_tab()
    load(office, board)
    sign_in(office, "cora", before)
    browser.wait(IS_IN)
    other = browser.call("GET", "/window")
    browser.to_tab(first)
    change_key(browser, "another-key", after)
    browser.wait("return document.getElementById('account-fault').textContent.includes(\"isn't the one that you signed in with\")")
    browser.click("#make-own-key")
    expect("letters of a key that is made", 24, browser.run("return document.getElementById('key-after').value.length"))
    office.shot("own-key")
    browser.click("#account-cancel")
    relay.break_off(LOSES_POSTS)
    browser.type("#add-line", "Ahead of it" + ENTER)
    change_key(browser, before, after)
    is_taken(browser)
    browser.type("#add-line", "Behind it" + ENTER)
    browser.wait(IS_TOLD, "3 changes wait here")
    changes, *_ = json.loads(browser.run(DEVICE))
    expect("keys among the changes", [], [key for key in (before, after) if key in json.dumps(changes)])
    heal(office)
    browser.wait(IS_TOLD, "Your key is changed")
    expect_key("cora", before, after)
    for tab, name in ((other, "Beside"), (first, "Afterwards")):
        browser.to_tab(tab)
        browser.wait(LOOKED + IS_LISTED, "Behind it")
        browser.type("#add-line", name + ENTER)
        browser.wait(IS_LISTED, name)
        browser.wait(ALL_ANSWERED)
    expect("tasks", ["Ahead of it", "Behind it", "Beside", "Afterwards"], described(board, "cora"))
    browser.to_tab(other)
    browser.call("DELETE", "/window")
    browser.to_tab(first)
    browser.click("#sign-out")
    browser.wait(IS_SHOWN, "#sign-in-form")
    left = browser.run(DEVICE)
    expect("keys after signing out", [], [key for key in (before, after) if key in left])


def is_taken(browser):
    """The form takes the keys, once the page knows which one is that of now."""
    browser.wait("return !document.getElementById('account-dialog').open")


def go_up_to(step, office, before, after):
    """Changes the own key, and another thing behind it, up to a step."""
    browser, relay = office.browser, office.relay
    mode, hindrance = STEPS[step]
    relay.break_off(mode if mode is not None else LOSES_POSTS)
    change_key(browser, before, after)
    is_taken(browser)
    browser.type("#add-line", f"Behind the stop {step}" + ENTER)
    browser.wait(IS_TOLD, "2 changes wait here")
    browser.wait(ARE_KEPT, 2)
    if mode is not None:
        relay.lost.wait(browser.patience)
        return
    browser.run(hindrance, after)
    relay.heal()
    browser.run("dispatchEvent(new Event('online'))")
    browser.wait("return window.stopped" if hindrance else ALL_ANSWERED)


def expect_finished(step, office, name, board, before, after):
    """After a stop the page gets in by itself, and finishes."""
    office.relay.heal()
    load(office, board)
    browser = office.browser
    browser.wait(LOOKED + IS_LISTED, f"Behind the stop {step}")
    browser.wait(ALL_ANSWERED)
    expect(f"who is in after a stop {step}", name, browser.run(IS_IN))
    expect_key(name, before, after)
    expect(f"told after a stop {step}", 0, browser.run("return document.querySelectorAll('#notices li').length"))
    expect(f"acted after a stop {step}", 1, described(board, name).count(f"Behind the stop {step}"))


def stopped_tabs(office):
    """A tab stops at each step of a change of the own key: loaded anew it finishes."""
    board, patience = newcomer("dina"), office.browser.patience
    with Browser(BROWSER, patience) as browser:
        browser.size(1280, 900)
        dinas = copy.copy(office)
        dinas.browser = browser
        load(dinas, board)
        sign_in(dinas, "dina", KEYS["dina"])
        browser.wait(IS_IN)
        for number, step in enumerate(STEPS, 1):
            before, after = KEYS["dina"], f"dina-key-{number}"
            go_up_to(step, dinas, before, after)
            browser.open("about:blank")
            expect_finished(step, dinas, "dina", board, before, after)


def stopped_browsers(office):
    """A browser is killed at each step, which remembers who is signed in: started again it finishes."""
    board, patience = newcomer("emil"), office.browser.patience
    emils, profile = copy.copy(office), pathlib.Path("profile-of-emil")
    with Browser(BROWSER, patience, profile) as emils.browser:
        load(emils, board)
        sign_in(emils, "emil", KEYS["emil"], remembers=True)
        emils.browser.wait(IS_IN)
    for number, step in enumerate(STEPS, 1):
        before, after = KEYS["emil"], f"emil-key-{number}"
        with Browser(BROWSER, patience, profile) as emils.browser:
            emils.browser.size(1280, 900)
            load(emils, board)
            emils.browser.wait(IS_IN)
            go_up_to(step, emils, before, after)
            emils.browser.kill()
        # (closed as people close it, it has all on the disk for the next step)
        with Browser(BROWSER, patience, profile) as emils.browser:
            emils.browser.size(1280, 900)
            expect_finished(step, emils, "emil", board, before, after)


def expect_faults(browser, words):
    """Nothing was told in the console but the stops that were made, in these words."""
    expect("faults", [], [told for told in browser.messages() if words not in told and "Failed to load resource" not in told])


def stopped_before_device(office):
    """Where a change of the own key never comes to the device nothing has changed: the key so far gets in, and the other one doesn't."""
    browser, board = office.browser, newcomer("hugo")
    before, after = KEYS["hugo"], "hugo-key-1"
    office.begin(board, "hugo")
    for hindrance, come in ((HIDING_STAYS, "return window.stopped"), (NOTHING_IS_PUT, "return document.getElementById('toast').textContent.includes('so it wasn\\'t made')")):
        browser.run(hindrance)
        change_key(browser, before, after)
        browser.wait(come)
        browser.wait(ARE_KEPT, 0)
        load(office, board)
        expect("who is in", "hugo", browser.wait(IS_IN))
        browser.wait(ALL_ANSWERED)
        expect("keys of hugo that are refused", [False, True], [is_refused("hugo", key) for key in (before, after)])
    expect_faults(browser, "no room")


def typed_keys(office):
    """A session that is lost in a stop: whoever types one of the two keys gets in, and the change is finished."""
    browser, board = office.browser, newcomer("fred")
    office.begin(board, "fred")
    for number, (step, typed) in enumerate(((step, typed) for step in LOST for typed in (0, 1)), 1):
        keys = [KEYS["fred"], f"fred-key-{number}"]
        go_up_to(step, office, *keys)
        browser.run("[sessionStorage, localStorage].forEach((place) => place.removeItem('taskboard.session'))")
        browser.open("about:blank")
        office.relay.heal()
        load(office, board)
        browser.wait(IS_TOLD, "fred: 2 changes not sent yet")
        sign_in(office, "fred", "fred-key-wrong")
        browser.wait(IS_TOLD, "doesn't know this name with this key")
        sign_in(office, "fred", keys[typed])
        browser.wait(IS_IN)
        browser.wait(ALL_ANSWERED)
        expect_key("fred", *keys)
        browser.wait(LOOKED + IS_LISTED, f"Behind the stop {step}")
    expect("tasks", [f"Behind the stop {step}" for step in LOST for _ in range(2)], described(board, "fred"))
    expect_faults(browser, "the tab stops here")


def without_tls(office):
    """Without TLS a browser hides nothing: the change of the own key is finished after a stop too, and no key stays after signing out."""
    browser, relay, board = office.browser, office.relay, newcomer("gina")
    ours = office.address
    office.address = f"http://{STRANGER}:{relay.port}/"
    # (who signed in there in a scene before may still be)
    load(office, board)
    browser.run("[sessionStorage, localStorage].forEach((place) => place.removeItem('taskboard.session'))")
    load(office, board)
    sign_in(office, "gina", KEYS["gina"])
    browser.wait(IS_IN)
    expect("means to hide a key", False, browser.run("return Boolean(crypto.subtle)"))
    go_up_to("before its answer", office, "gina-key-0", "gina-key-1")
    browser.open("about:blank")
    expect_finished("before its answer", office, "gina", board, "gina-key-0", "gina-key-1")
    go_up_to("before it is sent", office, "gina-key-1", "gina-key-2")
    browser.click("#sign-out")
    browser.wait(IS_TOLD, "Without TLS this browser can't hide keys")
    browser.click("#leave-keep")
    browser.wait(IS_SHOWN, "#sign-in-form")
    left = browser.run(DEVICE)
    expect("left on the device", [[], True], [[key for key in ("gina-key-1", "gina-key-2") if key in left], "Behind the stop before it is sent" in left])
    relay.heal()
    office.address = ours


def hidden_under_former_key(office):
    """A new person's key that was hidden under a key which another device has changed since is sent once the former key is given."""
    browser, relay, board = office.browser, office.relay, new_board("Hidden", bob="member")
    former, later = KEYS["ann"], "ann-key-later"
    task = add(board, description="Take the bins out")
    office.begin(board)
    add_person_unheard(office, board, "ida", "ida-key-00")
    tell("/me/key", key=later, old=former)
    KEYS["ann"] = later
    relay.heal()
    browser.run("dispatchEvent(new Event('online'))")
    sign_in(office, "ann", later)
    browser.wait(IS_TOLD, "give the former one to send it")
    browser.type("#notices input[type=password]", "some-other-key")
    press(browser, "Send it")
    browser.wait(IS_TOLD, "This isn't the key under which it is hidden")
    type_into(browser, "#notices input[type=password]", former[:4])
    told_meanwhile(office, board, task)
    browser.type("#notices input[type=password]", former[4:])
    press(browser, "Send it")
    browser.wait("return document.querySelectorAll('#notices .asks').length === 0")
    browser.wait(ALL_ANSWERED)
    # (what was refused is told on its board)
    office.go(board)
    browser.wait(IS_TOLD, "The server knows nobody of that name")
    dismiss(browser)
    KEYS["ida"] = "ida-key-00"
    expect("ida's key", False, is_refused("ida", "ida-key-00"))
    tell("/me/key", key=former, old=later)
    KEYS["ann"] = former
    # (a look that follows another within a second asks nothing)
    browser.wait(LOOKED + IS_SHOWN, "#sign-in-form")
    sign_in(office, "ann", former)
    browser.wait(IS_IN)


def told_meanwhile(office, board, task):
    """Another message comes while a key is typed in one: what is typed of it stays."""
    browser, relay = office.browser, office.relay
    typed = "return document.querySelector('#notices input[type=password]').value"
    before = browser.run(typed)
    office.go(board)
    browser.wait(IS_LISTED, "Take the bins out")
    relay.break_off(LOSES_POSTS)
    browser.run("document.querySelector('#list .tick').click()")
    browser.wait(IS_TOLD, "1 change waits here")
    tell(f"/boards/{board}/tasks/{task}/done", "bob")
    relay.heal()
    browser.wait("dispatchEvent(new Event('online')); " + IS_TOLD, "bob had completed Take the bins out already.")
    expect("what is typed of a key", [True, before], [before != "", browser.run(typed)])
    press(browser, "Dismiss", "#notices .already")
    browser.run("const key = document.querySelector('#notices input[type=password]'); key.focus(); key.setSelectionRange(99, 99)")


def key_changed_elsewhere(office):
    """Whose key the first person changed is told so, keeps what isn't sent, in each of their tabs, and sends it once they sign in anew."""
    browser, relay, board = office.browser, office.relay, newcomer("lena")
    former, given = KEYS["lena"], "lena-key-1"
    office.begin(board, "lena")
    relay.break_off(LOSES_POSTS)
    browser.type("#add-line", "Made before" + ENTER)
    browser.wait(IS_TOLD, "1 change waits here")
    first = browser.call("GET", "/window")
    browser.new_tab()
    load(office, board)
    sign_in(office, "lena", former)
    browser.wait(IS_TOLD, "1 change waits here")
    browser.type("#add-line", "Made beside" + ENTER)
    browser.wait(IS_TOLD, "2 changes wait here")
    other = browser.call("GET", "/window")
    tell("/people/lena/key", key=given)
    KEYS["lena"] = given
    relay.heal()
    for tab in (other, first):
        browser.to_tab(tab)
        browser.run("dispatchEvent(new Event('online'))")
        browser.wait(IS_TOLD, "The server doesn't take your key any more")
        browser.wait(IS_TOLD, "lena: 2 changes not sent yet")
    office.shot("key-changed-elsewhere")
    expect("sent with the former key", [], described(board, "lena"))
    sign_in(office, "lena", former)
    browser.wait(IS_TOLD, "doesn't know this name with this key")
    sign_in(office, "lena", given)
    browser.wait(IS_LISTED, "Made beside")
    browser.wait(ALL_ANSWERED)
    expect("sent with the new key", ["Made before", "Made beside"], described(board, "lena"))
    browser.to_tab(other)
    browser.wait("return document.getElementById('sign-in-form').offsetParent && !document.body.innerText.includes('not sent yet')")
    browser.call("DELETE", "/window")
    browser.to_tab(first)


def who_leaves(office):
    """The first person gives a key anew, lets someone go, takes over what is left without an owner, renames it, and lets them come back."""
    browser = office.browser
    KEYS["jan"] = "jan-key-00"
    board = new_board("Shared with jan", jan="owner")
    seen, unseen = (tell("/boards", who="jan", title=f"{word} of jan")["board"] for word in ("Seen", "Unseen"))
    tell(f"/boards/{seen}/roles", who="jan", member="ann", role="reader")
    office.begin(board)
    office.go(board, "people")
    given = give_key(browser, "[aria-label='New key: jan']")
    expect_key("jan", "jan-key-00", given)
    office.go(board, "files")
    office.go(board, "people")
    expect("keys that are told until they are dismissed", [given], browser.run("return [...document.querySelectorAll('#person-told p code')].map((key) => key.textContent)"))
    click_and_accept(browser, "[aria-label='Lock out: jan']")
    browser.wait("return document.getElementById('owned').innerText.includes('Seen of jan without another owner')")
    expect("in sight", True, browser.run(IN_SIGHT, "owned-part"))
    browser.wait(ALL_ANSWERED)
    expect("jan gets in", True, is_refused("jan", given))
    expect("a key that holds no more", False, browser.run("return document.getElementById('person-told').checkVisibility()"))
    browser.wait("return document.querySelector('#people .locked')?.textContent.includes('jan locked out')")
    office.shot("who-leaves")
    press(browser, "Take over", "#owned")
    browser.wait("return document.querySelectorAll('#owned li').length === 0")
    type_into(browser, "#take-number", str(unseen) + ENTER)
    browser.wait("return location.hash === arguments[0] && document.getElementById('heading').textContent === 'Unseen of jan'", f"#/{unseen}/people")
    for taken in (seen, unseen):
        roles = {one["name"]: one["role"] for one in json.loads(ask(f"/boards/{taken}/people"))["people"]}
        expect("roles", {"ann": "owner", "jan": "owner"}, roles)
    browser.wait("return document.getElementById('title-form').checkVisibility() && document.getElementById('title-text').value === 'Unseen of jan'")
    type_into(browser, "#title-text", "Ours" + ENTER)
    browser.wait("return document.getElementById('heading').textContent === 'Ours' && document.querySelector('#boards [aria-current] .name').textContent === 'Ours'")
    type_into(browser, "#take-number", "4294967295" + ENTER)
    browser.wait(IS_TOLD, "There is no board of this number")
    dismiss(browser)
    browser.type("#keys-name", "jan")
    expect_key("jan", given, give_key(browser, "#keys-form .primary"))
    told = {name: browser.run("return document.getElementById(arguments[0]).checkVisibility()", name) for name in ("keys-form", "take-form")}
    expect("forms of the first person", {"keys-form": True, "take-form": True}, told)


def click_and_accept(browser, selector):
    """Clicks what asks a question, once it is there, and says yes."""
    browser.wait("return document.querySelector(arguments[0])?.checkVisibility()", selector)
    browser.run("const [selector] = arguments; setTimeout(() => document.querySelector(selector).click())", selector)
    browser.answer_question()


def give_key(browser, selector):
    """Gives a new key, which is shown where one looks: that key."""
    click_and_accept(browser, selector)
    key = browser.wait("return document.getElementById('person-told').checkVisibility() && document.querySelector('#person-told code').textContent")
    expect("in sight", True, browser.run(IN_SIGHT, "person-told"))
    browser.wait(ALL_ANSWERED)
    browser.wait("return !document.getElementById('person-told').innerText.includes('Once this is saved')")
    return key


def not_the_first(office):
    """Who isn't the first person has no form for keys and boards of others; whom a board's list makes think so is told once."""
    browser, board = office.browser, newcomer("kurt")
    office.begin(board, "kurt")
    office.go(board, "people")
    browser.wait("return document.getElementById('keys-form').checkVisibility()")
    type_into(browser, "#take-number", "1" + ENTER)
    browser.wait(IS_TOLD, "There is no board of this number, or you didn't set up this server")
    dismiss(browser)
    browser.type("#keys-name", "ann")
    click_and_accept(browser, "#keys-form .primary")
    browser.wait(IS_TOLD, "Only whoever set up this server gives other people keys")
    browser.wait("return !document.getElementById('keys-form').checkVisibility() && !document.getElementById('take-form').checkVisibility()")
    expect("a key that was shown", False, browser.run("return document.getElementById('person-told').checkVisibility()"))
    dismiss(browser)
    browser.run("localStorage.removeItem('taskboard.adds-nobody kurt')")


SCENES = (own_key, stopped_tabs, stopped_browsers, stopped_before_device, typed_keys, without_tls, hidden_under_former_key, key_changed_elsewhere, who_leaves, not_the_first)
