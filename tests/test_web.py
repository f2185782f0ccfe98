"""`corewar web`: the requests that it accepts, saved sources, leagues with stored results, and the page of a folder."""
from __future__ import annotations

import json
import os
import re
import signal
import socket
import urllib.error
import urllib.request
from collections.abc import Iterator
from concurrent.futures import ThreadPoolExecutor
from dataclasses import dataclass
from pathlib import Path
from typing import Any

import pytest
from browsers import Browser, chromium
from conftest import ENVIRONMENT, EXAMPLES, TOP, begin
from counting import skip

from corewar.model.errors import CorewarError
from corewar.pages.site import site_folder

# Seconds to wait for an answer, or for the end of the server.
WAIT = 20
if not (TOP / "build" / "site").is_dir():
    skip("the site", "the site is not built; `make site` builds it", "esbuild")


@dataclass
class Site:
    """The address of the served site, and the folder of its sources."""

    address: str
    folder: Path

    def ask(self, path: str, body: object = None, method: str = "", **headers: str) -> tuple[int, bytes]:
        data = None if body is None else json.dumps(body).encode()
        request = urllib.request.Request(f"{self.address}{path}", data, headers, method=method or None)
        try:
            with urllib.request.urlopen(request, timeout=WAIT) as answer:
                return answer.status, answer.read()
        except urllib.error.HTTPError as fault:
            return fault.code, fault.read()

    def sources(self) -> dict[str, dict[str, Any]]:
        return {one["name"]: one for one in json.loads(self.ask("api/sources")[1])}

    def save(self, name: str, text: str, seen: str) -> tuple[int, dict[str, Any]]:
        status, body = self.ask(f"api/sources/{name}", {"text": text, "seen": seen}, "PUT")
        return status, json.loads(body)


def served(*words: object) -> Iterator[Site]:
    """Yields the site of `corewar web` with these arguments, of which the last is its folder; then stops the server."""
    with begin("web", "--no-browser", *words, stderr=None) as process:
        assert process.stdout
        found = re.search(r"at (http://\S+)", process.stdout.readline())
        assert found
        yield Site(found[1], Path(str(words[-1])))
        process.send_signal(signal.SIGINT)
        assert process.wait(WAIT) == 130


@pytest.fixture
def site(tmp_path: Path) -> Iterator[Site]:
    for name in ("dwarf", "imp"):
        (tmp_path / f"{name}.red").write_bytes((EXAMPLES / f"{name}.red").read_bytes())
    yield from served("--port", 0, "--results", tmp_path / "kept", tmp_path)


def test_accepted_requests(site: Site) -> None:
    """Requests need the token, the name of this machine as host, and the page as origin."""
    root = site.address.rsplit("/", 2)[0] + "/"
    assert site.ask("")[0] == 200 and site.ask("api/sources")[0] == 200 and "127.0.0.1" in site.address
    for path in ("", "api/sources", "0/", "x" * 22 + "/api/sources", "%2e%2e/"):
        assert Site(root, site.folder).ask(path)[0] == 404
    assert site.ask("api/sources", Host="evil.example")[0] == 403
    for origin in ("http://evil.example", "null", root.replace("http:", "https:")[:-1]):
        assert site.ask("api/sources", Origin=origin)[0] == 403
        assert site.ask("api/sources/imp.red", {"text": "", "seen": ""}, "PUT", Origin=origin)[0] == 403
        assert site.ask("api/league", {}, "POST", Origin=origin)[0] == 403
    for path in ("../server.py", "%2e%2e/server.py", "none.js", "api", "api/none", "sub/app.js"):
        assert site.ask(path)[0] == 404
    with urllib.request.urlopen(site.address, timeout=WAIT) as page:
        assert "frame-ancestors 'none'" in page.headers["Content-Security-Policy"]
        assert page.headers["X-Frame-Options"] == "DENY" and page.headers["Referrer-Policy"] == "no-referrer"
        assert b"default-src 'none'" in page.read()


def test_the_browser_opens_a_file(tmp_path: Path) -> None:
    """The token is not in an argument of a command, but in a file that only its user may read."""
    (tmp_path / "imp.red").write_text("MOV 0, 1\n")
    (tmp_path / "browser").write_text('#!/bin/sh\necho "$@"\nstat -c %a "${1#file://}"\ncat "${1#file://}"\n')
    (tmp_path / "browser").chmod(0o755)
    environment = {**ENVIRONMENT, "BROWSER": f"{tmp_path}/browser %s"}
    with begin("web", "--port", 0, tmp_path, env=environment) as process:
        assert process.stdout
        line, word, mode, page = [process.stdout.readline() for _ in range(4)]
        found = re.search(r"at (http://\S+)", line)
        assert found and f"url={found[1]}" in page and found[1] not in word and mode == "600\n"
        process.send_signal(signal.SIGINT)
        assert process.wait(WAIT) == 130 and not Path(word.strip().removeprefix("file://")).exists()


def test_a_killed_server_leaves_no_file(tmp_path: Path) -> None:
    """The page with the token is removed on SIGTERM, too."""
    pages = tmp_path / "pages"
    pages.mkdir()
    # The second line is from the browser, which is started once the page is written.
    environment = {**ENVIRONMENT, "BROWSER": "echo %s", "TMPDIR": str(pages)}
    with begin("web", "--port", 0, tmp_path, env=environment) as process:
        assert process.stdout
        _, page = process.stdout.readline(), process.stdout.readline()
        process.send_signal(signal.SIGTERM)
        status = process.wait(WAIT)
    assert page.startswith(f"file://{pages}/") and status == 130 and not [*pages.iterdir()]


def test_its_port_is_the_same_each_time(tmp_path: Path) -> None:
    """If another program uses the port, the server has a free one."""
    with socket.create_server(("127.0.0.1", 0)) as taken:
        port = taken.getsockname()[1]
        with begin("web", "--no-browser", "--port", port, tmp_path) as process:
            assert process.stdout
            assert process.stdout.readline().startswith(f"Port {port}: Address already in use. ")
            assert "at http://127.0.0.1:" in process.stdout.readline()
            process.send_signal(signal.SIGINT)
            process.wait(WAIT)
    for site in served("--port", port, tmp_path):
        assert site.address.startswith(f"http://127.0.0.1:{port}/")


def test_a_site_that_is_not_built_is_reported(monkeypatch: pytest.MonkeyPatch) -> None:
    monkeypatch.setattr("corewar.pages.site.BUILT", Path("none"))
    with pytest.raises(CorewarError, match="^the site is not built; run `make site`$"):
        site_folder()


def test_wrong_requests(site: Site) -> None:
    for method, path, body in (
        ("PUT", "api/sources/x.red", {}),
        ("PUT", "api/sources/x.red", []),
        ("POST", "api/league", {"sources": 1}),
        ("POST", "api/league", "x"),
    ):
        assert site.ask(path, body, method) == (400, b'{"fault": "this message is not one of the page\'s"}'), path
    assert site.ask("api/sources/x.red", None, "PUT")[0] == 400
    assert site.ask("api/league", {**fight("imp", "dwarf"), "rounds": float("inf")}, "POST")[0] == 400
    deep = urllib.request.Request(f"{site.address}api/league", b"[" * 100_000, method="POST")
    with pytest.raises(urllib.error.HTTPError, match="400"):
        urllib.request.urlopen(deep, timeout=WAIT)
    for length in (str(1 << 40), "9" * 5000, "-1"):
        assert site.ask("api/league", None, "POST", **{"Content-Length": length})[0] == 413
    assert site.ask("api/other", {}, "POST")[0] == site.ask("other", {}, "PUT")[0] == 404
    assert site.ask("x" * 300 + ".js")[0] == 404
    status, answer = site.ask("api/league", {**fight("imp", "dwarf"), "rounds": 0}, "POST")
    assert status == 400 and b"settings 1 Rounds" in answer


def test_sources_are_those_of_the_folder_now(site: Site) -> None:
    (site.folder / "dwarf.red").unlink()
    (site.folder / "new.red").write_text("MOV 0, 1\n")
    (site.folder / "large.red").write_bytes(b";" * 1_048_577)
    found = site.sources()
    assert [name for name, one in found.items() if not one.get("isExample")] == ["imp.red", "large.red", "new.red"]
    assert found["large.red"]["fault"] == "large.red has more than 1048576 bytes; left out"


def test_sources_are_saved_to_their_files(site: Site) -> None:
    seen = site.sources()["imp.red"]["seen"]
    status, saved = site.save("imp.red", "MOV 0, 1\n", seen)
    assert status == 200 and (site.folder / "imp.red").read_text() == "MOV 0, 1\n"
    ends = "MOV 0, 1\r\nDAT 0\n\udcff\r"
    assert site.save("imp.red", ends, saved["seen"])[0] == 200
    assert (site.folder / "imp.red").read_bytes() == b"MOV 0, 1\r\nDAT 0\n\xff\r"
    assert site.sources()["imp.red"]["text"] == ends
    (site.folder / "imp.red").write_text("changed")
    status, answer = site.save("imp.red", "lost?", saved["seen"])
    assert status == 409 and answer["fault"] == "imp.red has changed on disk; not overwritten"
    assert (site.folder / "imp.red").read_text() == "changed"
    assert site.save("imp.red", "mine", answer["seen"])[0] == 200
    for name in ("%2e%2e%2fout.red", "%2fetc%2fx.red", "x.txt", ".red", "", "a%00.red"):
        assert site.save(name, "", "")[0] == 400, name
    assert site.save("large.red", ";" * 1_048_577, "")[0] == 400
    status, answer = site.save("x" * 300 + ".red", "", "")
    assert status == 400 and answer["fault"].endswith(": File name too long")
    assert site.save("new.red", "DAT 0, 0\n", "")[0] == 200
    assert (site.folder / "new.red").read_text() == "DAT 0, 0\n"


def test_a_file_that_is_too_large_is_not_read(site: Site) -> None:
    with open(site.folder / "huge.red", "wb") as file:
        file.truncate(1 << 40)
    answer = {"fault": "huge.red is larger than 1048576 bytes; not saved"}
    assert site.save("huge.red", "NOP\n", "") == (400, answer)


def test_a_new_source_does_not_change_the_key_of_the_folder(tmp_path: Path) -> None:
    """A browser keeps unsaved texts by this key."""
    (tmp_path / "imp.red").write_text("MOV 0, 1\n")
    for site in served("--port", 0, tmp_path / "imp.red"):
        key = re.search(rb'data-key="\w+"', site.ask("")[1])
        assert key and site.save("new.red", "NOP 0\n", "")[0] == 200 and "new.red" in site.sources()
        assert key[0] in site.ask("")[1]


def test_of_two_saves_at_once_one_is_refused(site: Site) -> None:
    seen = site.sources()["imp.red"]["seen"]
    with ThreadPoolExecutor(2) as pool:
        for number in range(20):
            answers = [*pool.map(lambda who: site.save("imp.red", f"; {number} {who}", seen), range(2))]
            assert sorted(status for status, _ in answers) == [200, 409]
            seen = dict(answers)[200]["seen"]


def test_links_and_closed_files_are_respected(site: Site) -> None:
    (site.folder / "kept").mkdir()
    (site.folder / "kept" / "real.red").write_text("MOV 0, 1\n")
    (site.folder / "link.red").symlink_to("kept/real.red")
    assert site.save("link.red", "NOP 0\n", site.sources()["link.red"]["seen"])[0] == 200
    assert (site.folder / "link.red").is_symlink() and (site.folder / "kept" / "real.red").read_text() == "NOP 0\n"


def fight(*names: str, rounds: int = 5) -> dict[str, Any]:
    """Returns the request that runs a league of examples."""
    sources = [{"name": f"{name}.red", "text": (EXAMPLES / f"{name}.red").read_text()} for name in names]
    settings = {"core": 800, "cycles": 8000, "processes": 800, "longest": 20, "distance": 20}
    terms = {"settings": {**settings, "readLimit": 0, "writeLimit": 0}, "seed": 1, "rounds": rounds, "position": 0}
    return {"sources": sources, **terms, "formula": "(W*W-1)/S"}


def test_a_league_grows_and_is_stored(site: Site) -> None:
    def run(body: object) -> list[list[list[int]]]:
        return [json.loads(line) for line in site.ask("api/league", body, "POST")[1].splitlines()]

    lines = run(fight("dwarf", "imp", "silk"))
    assert lines[0] == [] and sorted(row[:2] for line in lines for row in line) == [[0, 1], [0, 2], [1, 2]]
    again = run(fight("dwarf", "imp", "silk"))
    assert len(again) == 1 and sorted(again[0]) == sorted(sum(lines, []))
    bad = fight("dwarf", "imp")
    bad["sources"].append({"name": "bad.red", "text": "MVO 0"})
    assert site.ask("api/league", bad, "POST") == (400, b'{"fault": "bad.red: line 1: 2 Operation"}')


@pytest.fixture(scope="module")
def browser() -> Iterator[Browser]:
    started = chromium()
    yield started
    started.end()


@pytest.fixture
def page(browser: Browser, site: Site) -> Browser:
    browser.open(site.address)
    browser.until("window.corewar?.session.view")
    return browser


def test_the_page_saves_to_the_folder(page: Browser, site: Site) -> None:
    """The first file fights another source; a file that has changed on disk is overwritten only if the user says so."""
    assert page.value("document.title") == "Dwarf against Imp · Core War"
    (site.folder / "own.red").write_bytes(b";name Own\n; caf\xe9\nmov 0, 1\n")
    page.open(site.address + "?again")
    page.until("window.corewar?.session.view")
    page.run("corewar.views.showDesk(true); corewar.shelf.show(corewar.shelf.find('own.red'))")
    page.run("const {mirror} = corewar.shelf.editor; mirror.setValue(mirror.getValue().replace('mov 0', 'mov.i 0'))")
    page.click("#download")
    page.until("document.getElementById('saved').textContent === 'Saved'")
    assert (site.folder / "own.red").read_bytes() == b";name Own\n; caf\xe9\nmov.i 0, 1\n"
    (site.folder / "own.red").write_text("nop 0\n")
    page.run("corewar.shelf.editor.mirror.setValue('mov 0, 1\\n')")
    page.click("#download")
    page.until("document.querySelector('#saved button')")
    # The message stays when the text is stored in the browser, a moment after it was typed.
    page.run("await new Promise(done => setTimeout(done, 600))")
    assert page.text("saved") == "own.red has changed on disk; not overwritten. Overwrite or Reload"
    assert (site.folder / "own.red").read_text() == "nop 0\n"
    page.click("#saved button")
    page.until("document.getElementById('saved').textContent === 'Saved'")
    assert (site.folder / "own.red").read_text() == "mov 0, 1\n"
    (site.folder / "own.red").write_text("nop 1\n")
    page.run("corewar.shelf.editor.mirror.setValue('mov 0, 2\\n')")
    page.click("#download")
    page.until("document.querySelectorAll('#saved button').length === 2")
    page.click("#saved button:last-child")
    page.until("corewar.shelf.shown.doc.getValue() === 'nop 1\\n'")
    page.run("corewar.shelf.editor.mirror.setValue('mov 0, 1\\n')")
    page.click("#download")
    page.until("document.getElementById('saved').textContent === 'Saved'")
    page.click("#new")
    page.click("#download")
    page.until("document.getElementById('saved').textContent === 'Saved'")
    assert (site.folder / "warrior.red").read_text().startswith(";redcode-94\n")


def test_the_folder_is_read_again(page: Browser, site: Site) -> None:
    """When the window gets the focus it takes new and changed files; a text that was changed in the page stays."""
    (site.folder / "own.red").write_text("mov 0, 1\n")
    page.open(site.address + "?focus")
    page.until("window.corewar?.session.view")
    text = "corewar.shelf.find('%s')?.doc.getValue()"
    page.run("const {shelf} = corewar; shelf.show(shelf.find('own.red')); shelf.editor.mirror.setValue('mov 0, 5\\n')")
    for name in ("imp", "own", "late"):
        (site.folder / f"{name}.red").write_text(f"mov 0, 1 ; {name} on disk\n")
    page.run("dispatchEvent(new Event('focus'))")
    page.until(f"{text % 'late.red'} === 'mov 0, 1 ; late on disk\\n'")
    assert page.value(text % "imp.red") == "mov 0, 1 ; imp on disk\n"
    assert page.value(text % "own.red") == "mov 0, 5\n"
    page.run("await corewar.shelf.save(false)")
    assert page.text("saved").startswith("own.red has changed on disk")
    (site.folder / "late.red").unlink()
    page.run("dispatchEvent(new Event('focus'))")
    page.until("corewar.shelf.find('late.red').saved === ''")


def test_drafts_are_found_again(page: Browser, site: Site) -> None:
    page.run(
        "corewar.shelf.show(corewar.shelf.find('imp.red')); corewar.shelf.editor.mirror.setValue('MOV 0, 1 ; mine')"
    )
    page.run("await new Promise(done => setTimeout(done, 700))")
    page.open(site.address + "?draft")
    page.until("window.corewar?.session.view")
    assert page.value("corewar.shelf.find('imp.red').doc.getValue()") == "MOV 0, 1 ; mine"
    assert (site.folder / "imp.red").read_text() != "MOV 0, 1 ; mine"


def test_a_file_is_saved_under_its_own_name(browser: Browser, tmp_path: Path) -> None:
    """The name of a file need not end in .red; its unsaved changes are found again."""
    (tmp_path / "first.txt").write_text("MOV 0, 1\n")
    for site in served("--port", 0, tmp_path / "first.txt"):
        for address in (site.address, site.address + "?again"):
            browser.open(address)
            browser.until("window.corewar?.session.view")
            assert browser.value("corewar.session.fight.warriors[0].name") == "first.txt"
            browser.run("corewar.shelf.editor.mirror.setValue('MOV 0, 1 ; mine\\n')")
            browser.run("await new Promise(done => setTimeout(done, 600))")
        assert browser.value("corewar.shelf.sources.filter(({name}) => name.startsWith('first')).length") == 1
        browser.run("await corewar.shelf.save(false)")
        assert browser.text("saved") == "Saved"
    assert (tmp_path / "first.txt").read_text() == "MOV 0, 1 ; mine\n"
    assert not (tmp_path / "first.red").exists()


def test_the_page_runs_leagues_by_the_server(page: Browser, site: Site) -> None:
    page.run("rounds.value = '5'; corewar.views.show('league'); await corewar.league.runAll()")
    total = page.value("corewar.league.total")
    assert page.value("corewar.league.done") == total and (site.folder / "kept").stat().st_size > 0
    page.run("await corewar.league.runAll()")
    assert page.value("corewar.league.done") == total
    # An error of the server is not one of a source.
    page.run('fetch = async () => new Response(\'{"fault": "no room"}\', {status: 400}); await corewar.league.runAll()')
    assert page.text("league-note") == f"0 of {total} matches, 5 rounds each, in 0.0 s; error: no room"


def test_pipes_and_devices_are_not_read(site: Site) -> None:
    """Reading such a file might never end."""
    os.mkfifo(site.folder / "pipe.red")
    (site.folder / "zero.red").symlink_to("/dev/zero")
    for name in ("pipe.red", "zero.red"):
        assert name not in site.sources()
        assert site.save(name, "NOP\n", "") == (400, {"fault": f"{name} is not a regular file; not saved"})
