"""Checks of the page of a statement with many lines."""
import os
import random
import re

from page_screen import same, statement_of
from page_tools import of_page, sealed_lines

SECONDS = 2
LONGEST = 1
PARTY = 'Party 00001'


def large(lines, seed=1):
    """Ledger lines with two parties each; amounts beyond what floating point has digits for."""
    chosen = random.Random(seed)
    for at in range(lines):
        territory, currency = (('GB', 'GBP'), ('DE', 'EUR'), ('FR', 'EUR'), ('US', 'USD'), ('JP', 'JPY'))[at % 5]
        units = chosen.randrange(10 ** 17)
        parties = sorted({f'Party {chosen.randrange(20000):05}', f'Party {chosen.randrange(20000):05}'})
        yield f'GBABC{at // 100000:02}{at % 100000:05}', territory, 'OnDemandStream', currency, at % 1000, units, [(it, units // 3) for it in parties]


class Seen:
    """What has to be found among many ledger lines: the sums of the currencies, how many lines the party PARTY has and what it gets in
    each currency, the largest amount, and the last ISRC."""

    def __init__(self, lines):
        self.lines = lines
        self.sums = {}
        self.owned = {}
        self.found = self.largest = 0
        self.last = None

    def __iter__(self):
        for line in large(self.lines):
            self.sums[line[3]] = self.sums.get(line[3], 0) + line[5]
            own = dict(line[6]).get(PARTY)
            self.found += own is not None
            if own is not None:
                self.owned[line[3]] = self.owned.get(line[3], 0) + own
            self.largest = max(self.largest, line[5])
            self.last = line[0]
            yield line


def answers(count, viewer, does, taken):
    """Whether the page did not freeze in the wait that ended last."""
    longest = viewer.browser.longest
    print(f'{does}: {taken:.2f} seconds of a processor, of which {longest:.2f} without an answer', flush=True)
    count.check(does, [] if longest < LONGEST else [f'no answer for {longest:.2f} seconds of a processor'])


def follow_large(count, viewer, lines):
    seen, path, written = Seen(lines), os.path.join(viewer.room, 'statement.tsv'), of_page('units').written
    with open(path, 'w', encoding='utf-8', newline='\n') as out:
        out.write(sealed_lines(statement_of(seen)))
    viewer.open([path])
    ready = viewer.browser.processor_seconds()
    answers(count, viewer, f'{lines} lines are ready', ready)
    most = SECONDS * max(1, lines / 100_000)
    count.check(f'{lines} lines', [] if ready < most else [f'ready after {ready:.2f} seconds of a processor'])
    same(count, 'exact sums', viewer.told('ledger').split('; ')[1:], [f'{currency} {written(units)}' for currency, units in sorted(seen.sums.items())])
    told = viewer.search('ledger', PARTY)
    searched = viewer.browser.processor_seconds()
    answers(count, viewer, 'a search', searched - ready)
    same(count, 'a search among them', int(re.search(r'; ([\d\u202f]+) of', told)[1].replace('\u202f', '')) >= seen.found > 0, True)
    owned = [f'{currency} {written(units)}' for currency, units in sorted(seen.owned.items())]
    same(count, 'what a party gets', told.split('; ')[:1 + len(owned)], [f'Part of {PARTY}, in {seen.found} line{"s" if seen.found != 1 else ""}:', *owned])
    follow_rows(count, viewer, seen, lines)
    count.check('nothing is asked of a network by many lines', viewer.problems())


def follow_rows(count, viewer, seen, lines):
    """The last line, the rows for the printer, and the largest amount."""
    browser, written = viewer.browser, of_page('units').written
    viewer.search('ledger', '')
    browser.run("document.querySelector('#ledger .box').focus()")
    browser.press('End', 'Control')
    browser.wait(f"document.querySelector('#ledger .active').parentNode.innerText.includes('{seen.last}')")
    browser.run("document.querySelector('#ledger .box').scrollTop = 0")
    browser.wait("document.querySelector('#ledger .body .row').dataset.at === '0'")
    browser.run("document.querySelector('#ledger .box').scrollTop = 1e9")
    browser.wait(f"document.querySelector('#ledger .body').innerText.includes('{seen.last}')")
    same(count, 'the last line is in view', browser.run("document.querySelectorAll('#ledger .body .row').length < 100"), True)
    rows = "document.querySelectorAll('#ledger .body .row').length"
    same(count, 'the rows for the printer', browser.run(f"(dispatchEvent(new Event('beforeprint')), {rows})"), min(lines, 1000))
    same(count, 'the rows after it', browser.run(f"(dispatchEvent(new Event('afterprint')), {rows} < 100)"), True)
    browser.show(1200, 30000)
    same(count, 'the rows on a screen of any height', browser.run(f"new Promise(done => setTimeout(() => done({rows} < 300), 300))"), True)
    browser.show()
    before = browser.processor_seconds()
    browser.click("document.querySelector('#ledger .names [data-name=Amount]')")
    browser.wait(f"document.querySelector('#ledger .body .row [data-name=Amount]').textContent === '{written(seen.largest)}'")
    answers(count, viewer, 'the largest amount is first', browser.processor_seconds() - before)
