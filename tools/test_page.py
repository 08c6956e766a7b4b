#!/usr/bin/env python3
"""Tests `jenwyllt page` in a real browser, outside the gate.

    tools/test_page.py [SHEET...] [--pictures FOLDER] [--install]

Makes the page of each sheet (without any: case_j, mouths and junctions of examples/), opens it in headless Chromium, clicks through passes, layers, rounds, the ranked
list and the game, and compares what is shown with what the library answers. The built library is needed. --install gets Chromium and its driver from the
system's packages first (apt-get, as root). --pictures keeps a screenshot of each page. A page must be under 5 MB and show its first picture within two
seconds. Exit status 0 if all is as it must be, 1 if not, 2 where the browser is missing.
"""
from __future__ import annotations

import argparse
import base64
import json
import shutil
import socket
import subprocess
import sys
import tempfile
import time
import urllib.request
from pathlib import Path
from typing import Any

ROOT = Path(__file__).resolve().parents[1]
sys.path.insert(0, str(ROOT / 'bindings' / 'python'))

from jenwyllt import kept_boundaries, read_sheet, run_to_rest, separations  # noqa: E402
from jenwyllt.game import solve_game  # noqa: E402
from jenwyllt.page import page  # noqa: E402
from jenwyllt.partition import partition  # noqa: E402
from jenwyllt.ranked import ports_of, ranked_junctions  # noqa: E402
from jenwyllt.rest import by_turns  # noqa: E402
from jenwyllt.sheet import Sheet  # noqa: E402

EXAMPLES = 'case_j', 'mouths', 'junctions'
MOST_BYTES, MOST_SECONDS = 5_000_000, 2.0
ELEMENT = 'element-6066-11e4-a52e-4f735466cecf'        # the key of an element in WebDriver's answers


class Browser:
    """headless Chromium by the WebDriver protocol"""

    def __init__(self) -> None:
        with socket.socket() as free:
            free.bind(('127.0.0.1', 0))
            port = free.getsockname()[1]
        self.base = f'http://127.0.0.1:{port}'
        self.driver = subprocess.Popen(['chromedriver', f'--port={port}'], stdout=subprocess.DEVNULL, stderr=subprocess.DEVNULL)
        for _ in range(100):
            try:
                self.ask('GET', '/status')
                break
            except OSError:
                time.sleep(0.1)
        options = {'args': ['--headless=new', '--no-sandbox', '--disable-gpu', '--window-size=1500,1100', '--allow-file-access-from-files']}
        self.session = self.ask('POST', '/session', {'capabilities': {'alwaysMatch': {'browserName': 'chrome', 'goog:chromeOptions': options}}})['sessionId']

    def ask(self, method: str, path: str, body: Any = None) -> Any:
        data = None if body is None else json.dumps(body).encode()
        request = urllib.request.Request(self.base + path, data, {'Content-Type': 'application/json'}, method=method)
        with urllib.request.urlopen(request, timeout=120) as answer:
            return json.loads(answer.read())['value']

    def do(self, method: str, path: str, body: Any = None) -> Any:
        return self.ask(method, f'/session/{self.session}{path}', body)

    def open(self, path: Path) -> None:
        self.do('POST', '/url', {'url': path.as_uri()})

    def run(self, script: str, *arguments: Any) -> Any:
        return self.do('POST', '/execute/sync', {'script': script, 'args': list(arguments)})

    def click(self, selector: str) -> None:
        found = self.do('POST', '/element', {'using': 'css selector', 'value': selector})
        self.run('arguments[0].scrollIntoView({block: "center"})', {ELEMENT: found[ELEMENT]})
        self.do('POST', f'/element/{found[ELEMENT]}/click', {})

    def key(self, key: str) -> None:
        self.do('POST', '/actions', {'actions': [{'type': 'key', 'id': 'keys', 'actions': [{'type': 'keyDown', 'value': key}, {'type': 'keyUp', 'value': key}]}]})

    def text(self, selector: str) -> str:
        return self.run('const e = document.querySelector(arguments[0]); return e ? e.textContent : ""', selector)

    def picture(self, path: Path) -> None:
        path.write_bytes(base64.b64decode(self.do('GET', '/screenshot')))

    def close(self) -> None:
        try:
            self.do('DELETE', '')
        finally:
            self.driver.terminate()


class Shown:
    """a page in the browser beside the library's answers to its sheet"""

    def __init__(self, browser: Browser, name: str, sheet: Sheet):
        self.browser, self.name, self.sheet, self.faults = browser, name, sheet, 0

    def same(self, what: str, shown: Any, answered: Any) -> None:
        if shown != answered:
            self.faults += 1
            print(f'{self.name}: {what}: shown {shown!r}, answered {answered!r}')

    def drawn(self, look: str) -> list[int]:
        script = 'return [...document.querySelectorAll("#lines line." + arguments[0])].map(e => Number(e.dataset.number)).sort((a, b) => a - b)'
        return self.browser.run(script, look)

    def gone(self, number: int) -> list[int]:
        s = self.sheet
        kept = {row.number for row in kept_boundaries(Sheet(number, s.width, s.height, s.cells, s.spans, s.boundaries, s.anchors)).rows}
        return [k for k in range(len(s.boundaries)) if k not in kept]

    def passes(self) -> None:
        for number in (1, 2, 3):
            self.browser.click(f'input[name=view][value="{number}"]')
            gone = self.gone(number)
            self.same(f'pass {number}, removed', self.drawn('gone'), gone)
            self.same(f'pass {number}, kept', self.drawn('kept'), [k for k in range(len(self.sheet.boundaries)) if k not in gone])

    def layers(self) -> None:
        self.browser.click('input[data-layer=boundaries]')
        self.same('without boundaries', self.drawn('kept') + self.drawn('gone'), [])
        self.browser.key('b')
        self.same('with boundaries', len(self.drawn('kept') + self.drawn('gone')), len(self.sheet.boundaries))
        anchors = len(set(self.sheet.anchors))
        self.same('anchors', self.browser.run('return document.querySelectorAll("#lines circle").length'), 2 * anchors)
        self.browser.click('input[data-layer=anchors]')
        self.same('without anchors', self.browser.run('return document.querySelectorAll("#lines circle").length'), 0)
        self.browser.key('a')

    def rounds(self) -> None:
        rounds, rows = by_turns(self.sheet)
        self.same('rows at rest', len(run_to_rest(self.sheet).rows), len(rows))
        gone: list[int] = []
        self.browser.run('goStep(0)')
        for k, each in enumerate(rounds, 1):
            for number, removed in zip((1, 2, 3), each.removed):
                self.browser.click('#step-on')
                gone += removed
                self.same(f'round {k}, pass {number}', self.drawn('gone'), sorted(gone))
                self.same(f'words of round {k}, pass {number}', f'Round {k}, pass {number}' in self.browser.text('#step'), True)
        self.browser.key('[')
        self.same('a step back', len(self.drawn('gone')), len(gone) - len(rounds[-1].removed[2]))

    def ranked(self) -> None:
        ranked = ranked_junctions(self.sheet)
        self.browser.key('3')
        for rank, proposal in list(enumerate(ranked.proposals))[:12]:
            self.browser.click(f'#rank-{rank}')
            ports = ports_of(proposal, ranked.kept.partition)
            words = self.browser.text('#chosen')
            self.same(f'rank {rank}, ports drawn', self.browser.run('return [...document.querySelectorAll("#lines line.port")].map(e => Number(e.dataset.port))'), ports)
            self.same(f'rank {rank}, ports named', all(f'boundary {port}' in words for port in ports), True)
            if not proposal.taken:
                self.browser.click(f'#rank-{rank} a.to-rank')
                self.same(f'rank {rank}, the link', self.browser.run('return document.querySelector("#ranked tr.chosen").id'), f'rank-{proposal.by}')

    def apart(self) -> None:
        if len(self.sheet.boundaries) < 2:
            return
        first = separations(self.sheet.width, self.sheet.height, self.sheet.boundaries)[0]
        self.browser.run('choose(0); document.querySelector("[data-hit=\\"1\\"]").dispatchEvent(new Event("mouseenter"))')
        words = self.browser.text('#separation')
        self.same('separation', f'the root of {first.numerator}/{first.denominator}' in words and 'within 2^-32' in words, True)

    def game(self) -> None:
        kept = [row.number for row in kept_boundaries(self.sheet).rows]
        cut = partition(self.sheet.width, self.sheet.height, self.sheet.cells, [self.sheet.boundaries[k].span for k in sorted(kept)])
        if not 1 <= cut.regions <= 32:
            self.same('words on a large graph', f'has {cut.regions} regions' in self.browser.text('#game-words'), True)
            return
        edges = [(pair.smaller, pair.larger) for pair in cut.pairs]
        goal = cut.regions
        game = solve_game(cut.regions, edges, goal)
        script = 'S.goal = arguments[0]; S.runner = arguments[1]; S.guard = arguments[2]; S.turn = S.played = 0; showGraph()'
        for runner in range(1, cut.regions + 1):
            for guard in range(1, cut.regions + 1):
                verdict = game.at(runner, guard, True)
                self.browser.run(script, goal, runner, guard)
                said = self.browser.text('#game-said')
                over = runner in (guard, goal)
                expected = 'has won' if over else ('The runner can force' if verdict.winner == 1 else 'The guard can force')
                self.same(f'runner {runner}, guard {guard}', expected in said, True)
                if not over and verdict.winner == 1:
                    for _ in range(verdict.moves):
                        self.browser.click('#move')
                    self.same(f'runner {runner}, guard {guard}, played out', 'the runner has won' in self.browser.text('#game-said'), True)
        self.same('nodes', self.browser.run('return document.querySelectorAll("[data-node]").length'), cut.regions)
        self.browser.key('k')


def tested(browser: Browser, path: Path, folder: Path, pictures: Path | None) -> int:
    sheet = read_sheet(path.read_bytes())
    made = folder / f'{path.stem}.html'
    made.write_text(page(sheet, path.stem))
    size = made.stat().st_size
    browser.open(made)
    ready = browser.run('return document.body.dataset.ready')
    shown = Shown(browser, path.stem, sheet)
    drawn = float(ready) / 1000
    shown.same('size', size < MOST_BYTES, True)
    shown.same('first picture', drawn < MOST_SECONDS, True)
    for step in (shown.passes, shown.layers, shown.rounds, shown.ranked, shown.apart, shown.game):
        step()
    if pictures:
        browser.run('S.view = String(D.pass); S.layers.graph = false; const taken = D.ranked.rows ? D.ranked.rows.findIndex(row => row.taken) : -1;'
                    'if (taken >= 0) showRank(taken); everything(); window.scrollTo(0, 0)')
        browser.picture(pictures / f'page_{path.stem}.png')
    print(f'{path.stem}: {size:,} bytes, drawn after {drawn:.2f} s, {shown.faults} faults')
    return shown.faults


def main() -> int:
    parser = argparse.ArgumentParser(description=__doc__, formatter_class=argparse.RawDescriptionHelpFormatter)
    parser.add_argument('sheets', nargs='*', type=Path, metavar='SHEET')
    parser.add_argument('--pictures', type=Path, metavar='FOLDER')
    parser.add_argument('--install', action='store_true')
    args = parser.parse_args()
    if args.install:
        subprocess.run(['apt-get', 'update', '-q'], check=True)
        subprocess.run(['apt-get', 'install', '-y', '-q', 'chromium', 'chromium-driver'], check=True)
    if not shutil.which('chromedriver'):
        print('test_page: chromedriver is missing: --install gets it', file=sys.stderr)
        return 2
    browser = Browser()
    try:
        with tempfile.TemporaryDirectory() as folder:
            faults = sum(tested(browser, path, Path(folder), args.pictures) for path in args.sheets or [ROOT / 'examples' / f'{name}.sheet' for name in EXAMPLES])
    finally:
        browser.close()
    return int(faults > 0)


if __name__ == '__main__':
    sys.exit(main())
