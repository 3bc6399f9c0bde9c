"""Checks of the page in a browser: what it shows, finds and saves."""
import csv
import glob
import io
import os
import re
import time

from page_tools import EXAMPLE, content_of, example, of_page, sealed
from running import TOP, put

REPORT = ['REPORT', 'R1', '1', '2024-01-01', '2024-01-31', '31']
HOSTILE = ['<img src=x onerror=alert(1)>', '</script><script>window.hurt = 1</script>', '<!-- <script>', '&lt;b&gt; &amp; "quoted"',
           '{{script}} <!-- ledger -->', 'turned \u202egnp.exe', 'a\rb', '__proto__', 'Bj\u00f6rk \U0001f3b5', '=1+2', '+cmd', '-2+3|x', '@SUM(A1)',
           'Ada\xa0', 'zero\u200bwidth', ' two  spaces ', 'Hart, "Ada"', '\u05d0\u05d1\u05d2 \u05d3', '\u0410da', 'Ada', '\u05d4\u05d5', '\u05d6\u05d7']
SHOWN = {'turned \u202egnp.exe': 'turned <U+202E>gnp.exe', 'a\rb': 'a<U+000D>b', 'Ada\xa0': 'Ada<U+00A0>', 'zero\u200bwidth': 'zero<U+200B>width',
         ' two  spaces ': '<U+0020>two  spaces<U+0020>'}
NORTHWIND = """File 2 (2.tsv), 1 block left out NoIsrc
File 2 (2.tsv), 1 block left out UnknownSummary
File 3 (3.tsv) Doubled
File 3 (3.tsv), 2 blocks left out DoubledFile
Number 2 of 3 files MISSING
File 2 (2.tsv), 1 sum that differs SUMMARY"""


class Viewer:
    """Pages in a browser, from statements that are made for them."""

    def __init__(self, browser, tools, room):
        self.browser = browser
        self.tools = tools
        self.room = room

    def open(self, words, folder=TOP, given=None):
        """Makes a page and opens it; answers the seconds that the opening took."""
        path = os.path.join(self.room, 'page.html')
        with open(path, 'wb') as out:
            status, _, error = self.tools.run('dsr_page', words, folder, given, out)
        if status != 0:
            raise RuntimeError(error)
        return self.browser.open(path)

    def open_example(self):
        self.open(['-', '1.tsv', '2.tsv', '3.tsv'], EXAMPLE, example().encode())

    def text(self, selector):
        return self.browser.run(f'[...document.querySelectorAll({selector!r})].map(it => it.innerText.replace(/\\s+/g, " ").trim()).join("\\n")')

    def search(self, section, text):
        """Searches in a table, and waits for the answer."""
        self.browser.run(f"""{{
            const input = document.querySelector('#{section} input');
            document.querySelector('#{section} output').textContent = '';
            input.value = {text!r};
            input.dispatchEvent(new Event('input'));
        }}""")
        return self.told(section)

    def told(self, section):
        """What a table says of the lines that it shows, with every digit."""
        self.browser.wait(f"/line/.test(document.querySelector('#{section} output').textContent)")
        return self.browser.run(f"[...document.querySelectorAll('#{section} output > div > span')].map(it => it.textContent).join('; ')")

    def saved(self, section):
        """The rows of the table that is saved by its button, and the bytes of the file."""
        for path in glob.glob(os.path.join(self.room, '*.csv*')):
            os.remove(path)
        self.browser.save_to(self.room)
        self.browser.click(f"document.querySelector('#{section} .save')")
        until = time.monotonic() + 60
        content, before = b'', None
        while (not content or content != before) and time.monotonic() < until:
            time.sleep(0.1)
            before, paths = content, glob.glob(os.path.join(self.room, '*.csv'))
            content = content_of(paths[0])[0] if paths else b''
        return list(csv.reader(io.StringIO(content.decode('utf-8-sig'), newline=''))), content

    def problems(self):
        """What the browser noted: exceptions, refusals of the page's policy, and requests to anything but the page."""
        for event in self.browser.events:
            told = event['params']
            if event['method'] in ('Runtime.exceptionThrown', 'Log.entryAdded', 'Page.javascriptDialogOpening'):
                yield str(told)[:300]
            if event['method'] == 'Network.requestWillBeSent' and not told['request']['url'].endswith('/page.html') and not told[
                    'request']['url'].startswith('blob:'):
                yield told['request']['url']


def same(count, name, found, wanted):
    count.equal(name, wanted, found)


def statement_of(booked, files=('FILE\t1\t1\tOurs\t1\tWhole',), rejects=()):
    """The lines of a statement of these ledger lines."""
    written = of_page('units').written
    yield '\t'.join(REPORT) + '\n'
    yield from (f'{line}\n' for line in files)
    for isrc, territory, use_type, currency, usages, units, parties in booked:
        key = f'{isrc}\t{territory}\t{use_type}\t{currency}'
        yield f'LEDGER\t{key}\t{usages}\t{written(units)}\n'
        for name, part in parties:
            yield f'PARTY\t{key}\t{name}\t{written(part)}\n'
        yield f'UNCLAIMED\t{key}\t{written(units - sum(part for _, part in parties))}\n'
    yield from (f'{line}\n' for line in rejects)


def follow_example(count, viewer):
    viewer.open_example()
    run = viewer.browser.run
    same(count, 'the title', viewer.text('h1'), '2024-01-NORTHWIND')
    same(count, 'the parts of the page', viewer.text('h2').splitlines(),
         ['Owed', 'Left out', 'Parties', 'Files', 'Remarks', 'Letters to the sender', 'Territories and use types', 'Ledger'])
    same(count, 'the totals', viewer.text('.sum'), '2.40\n15.40')
    same(count, 'claimed and unclaimed', viewer.text('.total dd'), '1.80\n0.60\n400\n4.58\n10.81\n1510')
    same(count, 'a sign for more decimals', run("[...document.querySelectorAll('.total dd span')].map(it => getComputedStyle(it, '::after').content).join()"),
         'none,none,none,"…","…",none')
    viewer.browser.click("document.querySelector('#decimals')")
    same(count, 'all decimals', viewer.text('.total dd'), '1.8000000000\n0.6000000000\n400\n4.5833325000\n10.8166675000\n1510')
    viewer.browser.click("document.querySelector('#decimals')")
    same(count, 'what was left out', viewer.text('.left tbody tr'), 'File 2 (2.tsv) NoIsrc 1 GBP 10 7.10\nFile 2 (2.tsv) UnknownSummary 1 unknown 10 6.00\n'
         'File 3 (3.tsv) DoubledFile 2 EUR 400 2.40\nFile 3 (3.tsv) DoubledFile GBP 1500 7.50')
    same(count, 'the files', viewer.text('.files tbody tr'), '1 1.tsv 1 Ours 2 Whole\n2 2.tsv 3 Ours 3 Whole\n3 3.tsv 1 Doubled 2 Whole')
    same(count, 'the remarks', viewer.text('#remarks h3'), NORTHWIND)
    same(count, 'the marked cells', viewer.text('#remarks mark'), '(empty)\nGB-upload\n1\n1\n30\n21')
    same(count, 'the numbers of their lines', viewer.text('#remarks .faulty th'), '6\n9\n1\n1\n3')
    same(count, 'the totals of territories', viewer.text('#markets .body .row'),
         'DE OnDemandStream EUR 400 2.40\nGB PermanentDownload GBP 10 7.90\nGB OnDemandStream GBP 1500 7.50')
    same(count, 'the totals of parties', viewer.text('#parties .body .row'), 'Ada Hart EUR 1.20\nBen Cole EUR 0.60\nAda Hart GBP 3.33\nBen Cole GBP 1.25')
    same(count, 'the titles', viewer.text('#ledger .body .row .cell:nth-child(2)'), 'Northern Song\nNorthern Song\nNorthern Song\nHarbour Lights')
    follow_search(count, viewer)
    follow_letters(count, viewer)
    count.check('nothing is asked of a network', viewer.problems())


def follow_search(count, viewer):
    """Searches in the ledger, its order, a line by itself, and the lines of a party."""
    run = viewer.browser.run
    same(count, 'the ledger', viewer.told('ledger'), '4 lines; EUR 2.4000000000; GBP 15.4000000000')
    same(count, 'a search for a party', viewer.search('ledger', 'ben'),
         'Part of Ben Cole, in 2 lines:; EUR 0.6000000000; GBP 1.2500000000; 2 of 4 lines; EUR 2.4000000000; GBP 5.0000000000')
    same(count, 'its part of each line', viewer.text('#ledger .body [data-name=Part]'), '0.60\n1.25')
    same(count, 'a search for a party and a currency', viewer.search('ledger', 'ben gbp'),
         'Part of Ben Cole, in 1 line:; GBP 1.2500000000; 1 of 4 lines; GBP 5.0000000000')
    same(count, 'a search for a title', viewer.search('ledger', 'harbour'), '1 of 4 lines; GBP 2.5000000000')
    same(count, 'a search without a line', viewer.search('ledger', 'nobody'), '0 of 4 lines')
    same(count, 'a search by amount', viewer.search('ledger', '7.9'), '1 of 4 lines; GBP 7.9000000000')
    viewer.search('ledger', '')
    viewer.browser.click("document.querySelector('#ledger .names [data-name=Amount]')")
    viewer.browser.wait("document.querySelector('#ledger .body .row').innerText.includes('7.90')")
    same(count, 'sorted by amount', viewer.text('#ledger .body .row [data-name=Amount]'), '7.90\n5.00\n2.50\n2.40')
    viewer.browser.click("document.querySelectorAll('#ledger .body .link')[1]")
    same(count, 'a line by itself', viewer.text('dialog tr'), 'Ada Hart 2.50\nBen Cole 1.25\nunclaimed 1.25\nthe line 5.00')
    same(count, 'with its title', viewer.text('dialog .title'), 'Northern Song')
    run("document.querySelector('#ledger output').textContent = ''")
    viewer.browser.click("document.querySelectorAll('dialog .party')[0]")
    ada = 'Part of Ada Hart, in 3 lines:; EUR 1.2000000000; GBP 3.3333325000; 3 of 4 lines; EUR 2.4000000000; GBP 7.5000000000'
    same(count, 'the lines of a party', viewer.told('ledger'), ada)
    viewer.browser.click("document.querySelector('#ledger .names [data-name=Part]')")
    viewer.browser.wait("document.querySelectorAll('#ledger .body [data-name=Part]')[1].innerText === '1.20'")
    same(count, 'sorted by its part', viewer.text('#ledger .body [data-name=Part]'), '2.50\n1.20\n0.83')
    rows, content = viewer.saved('ledger')
    same(count, 'the lines of a party in a file', rows, [
        ['ISRC', 'Titles', 'Territory', 'Use type', 'Currency', 'Usages', 'Amount', 'Party', 'Part'],
        ['GBAYE0601498', 'Northern Song', 'GB', 'OnDemandStream', 'GBP', '1000', '5.0000000000', 'Ada Hart', '2.5000000000'],
        ['GBAYE0601498', 'Northern Song', 'DE', 'OnDemandStream', 'EUR', '400', '2.4000000000', 'Ada Hart', '1.2000000000'],
        ['GBAYE0601499', 'Harbour Lights', 'GB', 'OnDemandStream', 'GBP', '500', '2.5000000000', 'Ada Hart', '0.8333325000']])
    same(count, 'its line ends', content.count(b'\r\n') == content.count(b'\n') == 4, True)
    viewer.browser.click("document.querySelector('#ledger .chip')")
    viewer.browser.wait("document.querySelector('#ledger output').textContent.startsWith('4 lines')")
    same(count, 'all lines again', viewer.told('ledger'), '4 lines; EUR 2.4000000000; GBP 15.4000000000')
    run("document.querySelector('#ledger output').textContent = ''")
    viewer.browser.click("document.querySelectorAll('#parties .body .link')[2]")
    same(count, 'a click on a party', viewer.told('ledger'), ada)
    viewer.browser.wait("document.activeElement === document.querySelector('#ledger .box')")
    viewer.browser.click("document.querySelector('#ledger .chip')")
    viewer.browser.wait("document.querySelector('#ledger output').textContent.startsWith('4 lines')")
    same(count, 'the ledger in a file', viewer.saved('ledger')[0][0][-2:], ['Unclaimed', 'Parties'])


def follow_letters(count, viewer):
    """A letter that is copied."""
    viewer.browser.click("document.querySelector('.letter summary')")
    viewer.browser.click("document.querySelector('.letter .copy')")
    viewer.browser.wait("document.querySelector('.letter [role=status]').textContent !== ''")
    copied = viewer.browser.run("navigator.clipboard.readText().catch(() => String(getSelection()))")
    wanted = '1. Line 6, column Isrc (cell 3 of the line): it is empty (recording 2, BlockId 2)\n   Expected: an ISRC of twelve characters'
    count.check('a letter that is copied', [] if copied.startswith('Subject: sales report') and wanted in copied else [copied])
    same(count, 'the letters', viewer.text('.letter summary'), 'On file 2 (2.tsv)\nOn file 3 (3.tsv)\nOn files that have not come')


def follow_hostile(count, viewer):
    """Names that look like markup, formulas or other names, in the statement, in a line of a file and as the file's name."""
    parties = '|'.join(name.replace('\\', '\\\\').replace('|', '\\|') for name in HOSTILE)
    name = '<img src=x onerror=alert(2)>.tsv'
    lines = ['HEAD\tR1\t1\t1\t2024-01-01\t2024-01-31\t<b>Sender</b>\t</script>', 'SY01\tS1\tGB\tStream\tGBP\t2\t2',
             'AS01\t1\t<script>alert(3)</script>\tSong\tBand', f'MW01\t1\tW1\tSong\t{parties}\t{"|".join("1" for _ in HOSTILE)}', 'SU01\t1\tS1\t1\t1',
             'AS01\t2\tGBABC2400001\t=Song|<i>x</i>\tBand', f'MW01\t2\tW1\tSong\t{parties}\t{"|".join(str(at % 5) for at in range(len(HOSTILE)))}',
             'SU01\t2\tS1\t1\t1', 'FOOT\t9\t1\t2']
    text = ('\n'.join(lines) + '\n').encode()
    put(os.path.join(viewer.room, name), text)
    viewer.browser.show(height=1600)
    viewer.open(['-', name], viewer.room, sealed([text]).encode())
    run = viewer.browser.run
    names = "[...document.querySelectorAll('#parties .body .cell:first-child bdi')].map(it => it.textContent)"
    same(count, 'hostile parties', sorted(run(names)), sorted(SHOWN.get(it, it) for it in HOSTILE))
    same(count, 'a hostile ISRC', viewer.text('#remarks mark'), '<script>alert(3)</script>')
    same(count, 'a hostile file', viewer.text('.files tbody td:nth-child(2)'), name)
    same(count, 'a hostile sender', viewer.text('.facts dd').splitlines()[2:], ['<b>Sender</b>', '</script>'])
    same(count, 'no other element', run("document.querySelectorAll('img, script:not(:last-child), b > b').length"), 0)
    same(count, 'no script of theirs', run('typeof window.hurt'), 'undefined')
    same(count, 'a search for a hostile name', viewer.search('parties', '<img'), f'1 of {len(HOSTILE)} lines')
    viewer.search('parties', '')
    same(count, 'a search for several parties', viewer.search('ledger', 'ada gbp'),
         'Part of 3 parties, in 1 line:; GBP 0.0800000000; 1 line; GBP 1.0000000000')
    viewer.search('ledger', '')
    same(count, 'names that look alike', sorted(run("[...document.querySelectorAll('#parties .alike')].map(it => it.parentNode.firstChild.textContent)")),
         sorted(['Ada', 'Ada<U+00A0>', '\u0410da']))
    follow_parties(count, viewer)
    rows, content = viewer.saved('parties')
    text = content.decode('utf-8-sig')
    told = {row[0] for row in rows[1:]}
    same(count, 'names in a file', told, {f"'{it}" if it[0] in '=+-@' else it for it in HOSTILE})
    same(count, 'no formula in a file', [row for row in rows for cell in row if re.match(r'[=+\-@\t\r]', cell)], [])
    same(count, 'quotes in a file', '"Hart, ""Ada""",GBP,' in text, True)
    same(count, 'a title in a file', viewer.saved('ledger')[0][1][1], "'=Song / <i>x</i>")
    count.check('nothing is asked of a network by hostile names', viewer.problems())
    viewer.browser.show()


def follow_parties(count, viewer):
    """Each party of a work stands beside its own share on the screen, whatever way its name is written."""
    found = viewer.browser.run("""[...document.querySelectorAll('#remarks .parties li')].map(it => {
        const name = it.querySelector('bdi').getBoundingClientRect(), share = it.querySelector('.share-of').getBoundingClientRect();
        return [it.querySelector('bdi').textContent, it.querySelector('.share-of').textContent, share.left - name.right, Math.abs(share.top - name.top)];
    })""")
    far = [it for it in found if not 0 <= it[2] < 12 or it[3] > 12]
    same(count, 'each party beside its share', [len(found), far], [len(HOSTILE), []])
    turned = viewer.browser.run("""[...document.querySelectorAll('#remarks td[data-name=Parties] bdi')].map(it => it.getClientRects()[0]).filter((it, at, all) =>
        at && Math.abs(it.top - all[at - 1].top) < 3 && it.left < all[at - 1].left).length""")
    same(count, 'a list in its order', turned, 0)
    same(count, 'look-alikes of a list', viewer.browser.run("document.querySelectorAll('#remarks .parties em').length"), 3)


def follow_screen(count, viewer):
    viewer.browser.ask('Browser.grantPermissions', permissions=['clipboardReadWrite', 'clipboardSanitizedWrite'])
    follow_example(count, viewer)
    follow_hostile(count, viewer)
