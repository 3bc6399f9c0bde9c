"""Checks of the page in a browser for those who use no mouse, a narrow screen, a dark one, a printer or a reader of screens."""
import base64
import os
import re
import shutil
import subprocess
import time

from page_screen import same, statement_of
from page_tools import sealed, sealed_lines
from running import put

LINES = 3000
# What Tab reaches of the example: the links, the box of all decimals, and of each table its search, its button and its grid.
STOPS = (['a'] * 8 + ['#decimals', 'a', '#parties input', '#parties .save', '#parties .box'] + ['summary', '.wide'] * 2 + ['.wide'] * 2
         + ['summary', '.wide', '.wide', '.wide'] + ['summary'] * 3 + ['#markets input', '#markets .save', '#markets .box', '#ledger input',
                                                                   '#ledger .save', '#ledger .box'])
ACTIVE = """(() => {
    const box = document.querySelector('#ledger .box'), cell = document.getElementById(box.getAttribute('aria-activedescendant'));
    return [document.activeElement === box, cell?.parentNode.dataset.at ?? null, cell?.dataset.name ?? null];
})()"""
# Whether each text can be read: its contrast with what is behind it, by the Web Content Accessibility Guidelines 2.1, level AA.
CONTRAST = """(() => {
    const canvas = document.createElement('canvas').getContext('2d', { willReadFrequently: true });
    const parse = text => {
        canvas.clearRect(0, 0, 1, 1);
        canvas.fillStyle = text;
        canvas.fillRect(0, 0, 1, 1);
        const [r, g, b, a] = canvas.getImageData(0, 0, 1, 1).data;
        return [r, g, b, a / 255];
    };
    const over = ([r, g, b, a], [x, y, z]) => [r * a + x * (1 - a), g * a + y * (1 - a), b * a + z * (1 - a)];
    const behind = element => {
        const layers = [];
        for (let at = element; at; at = at.parentElement) layers.push(parse(getComputedStyle(at).backgroundColor));
        return layers.reverse().reduce((below, layer) => over(layer, below), [255, 255, 255]);
    };
    const light = color => {
        const [r, g, b] = color.map(it => (it /= 255) <= 0.04045 ? it / 12.92 : ((it + 0.055) / 1.055) ** 2.4);
        return 0.2126 * r + 0.7152 * g + 0.0722 * b;
    };
    const ratio = (one, other) => {
        const [low, high] = [light(one), light(other)].sort((a, b) => a - b);
        return (high + 0.05) / (low + 0.05);
    };
    const found = new Map(), walker = document.createTreeWalker(document.body, NodeFilter.SHOW_TEXT);
    const note = (name, value, least) => { if (value < least) found.set(name, value.toFixed(2)); };
    let seen = 0;
    for (let node = walker.nextNode(); node; node = walker.nextNode()) {
        const element = node.parentElement;
        if (!node.data.trim() || element.closest('script, style, noscript') || !element.checkVisibility()) continue;
        const style = getComputedStyle(element), size = parseFloat(style.fontSize), ground = behind(element);
        const isLarge = size >= 24 || size >= 18.66 && +style.fontWeight >= 700;
        note(`${element.tagName}.${element.className} ${node.data.slice(0, 20)}`, ratio(over(parse(style.color), ground), ground), isLarge ? 3 : 4.5);
        seen++;
    }
    for (const element of document.querySelectorAll('input:not([type=checkbox]), button')) {
        if (!element.checkVisibility() || parseFloat(getComputedStyle(element).borderTopWidth) === 0) continue;
        const ground = behind(element.parentElement);
        note(`border of ${element.className || element.type}`, ratio(over(parse(getComputedStyle(element).borderTopColor), ground), ground), 3);
    }
    for (const element of document.querySelectorAll('input[type=search]')) {
        const ground = behind(element);
        note('placeholder', ratio(over(parse(getComputedStyle(element, '::placeholder').color), ground), ground), 4.5);
    }
    for (const element of document.querySelectorAll('.number.cut')) {
        const ground = behind(element);
        note('the sign for more decimals', ratio(over(parse(getComputedStyle(element, '::after').color), ground), ground), 4.5);
    }
    return [seen, [...found]];
})()"""
# What is wrong for a reader of screens: names, roles and owners, identifiers, headings.
RULES = """(() => {
    const found = [], all = selector => [...document.querySelectorAll(selector)];
    const name = it => it.getAttribute('aria-label') || it.labels?.[0]?.innerText || it.innerText || it.title;
    const need = (right, what) => { if (!right) found.push(what); };
    need(document.documentElement.lang, 'no language');
    need(document.title.trim(), 'no title');
    need(all('h1').length === 1, 'not one h1');
    need(all('main').length === 1, 'not one main');
    need(!/user-scalable=no|maximum-scale/.test(document.querySelector('meta[name=viewport]').content), 'no zoom');
    let level = 1;
    for (const head of all('h1, h2, h3, h4').filter(it => it.checkVisibility())) {
        need(+head.tagName[1] <= level + 1, `a level is left out before ${head.innerText}`);
        level = +head.tagName[1];
    }
    for (const it of all('input, button, a, summary, [role=grid], dialog[open]')) need(!it.checkVisibility() || name(it)?.trim(), `no name: ${it.outerHTML.slice(0, 80)}`);
    const ids = all('[id]').map(it => it.id);
    need(new Set(ids).size === ids.length, 'an identifier twice');
    const owners = { row: 'rowgroup', gridcell: 'row', columnheader: 'row', rowgroup: 'grid' };
    for (const it of all('.box [role]')) need(it.parentNode.getAttribute('role') === owners[it.getAttribute('role')], `${it.getAttribute('role')} in ${it.parentNode.outerHTML.slice(0, 60)}`);
    for (const it of all('.box .cell')) need(/^(gridcell|columnheader)$/.test(it.getAttribute('role')), 'a cell without a role');
    for (const grid of all('[role=grid]')) {
        need(grid.getAttribute('aria-rowcount') > 0 && grid.getAttribute('aria-colcount') > 0, 'a grid without counts');
        need(grid.querySelectorAll('a, button, input, [tabindex]').length === 0, 'a stop of Tab within a grid');
        const active = grid.getAttribute('aria-activedescendant');
        need(!active || grid.contains(document.getElementById(active)), 'the active cell is not in its grid');
        for (const row of grid.querySelectorAll('[role=row]')) need(row.getAttribute('aria-rowindex') == +row.dataset.at + 2, 'a row without its place');
    }
    for (const it of all('[tabindex]')) need(it.tabIndex === 0, 'an order of Tab of its own');
    for (const it of all('div.wide[tabindex]')) need(it.getAttribute('aria-label') && it.getAttribute('role') === 'group', 'lines without a name');
    for (const it of all('table')) need(it.closest('dialog') || it.querySelector('th'), 'a table without heads');
    for (const it of all('[aria-hidden=true]')) need(!it.querySelector('a, button, input, [tabindex]'), 'a hidden stop of Tab');
    return found;
})()"""
# What is cut off or broken: what is wider than the screen, texts that do not fit, and words on two lines.
NARROW = """(() => {
    const found = [], root = document.documentElement, walker = document.createTreeWalker(document.body, NodeFilter.SHOW_TEXT);
    if (root.scrollWidth > root.clientWidth) found.push(`the page is ${root.scrollWidth} wide`);
    for (let node = walker.nextNode(); node; node = walker.nextNode()) {
        const element = node.parentElement;
        if (!node.data.trim() || element.closest('script, style, noscript') || !element.checkVisibility()) continue;
        for (let at = element; at !== document.body; at = at.parentElement) {
            const style = getComputedStyle(at);
            if (style.overflowX !== 'visible' && at.scrollWidth > at.clientWidth + 1) found.push(`cut: ${node.data.slice(0, 30)} in ${at.className}`);
        }
        for (const word of node.data.matchAll(/[^\\s-]+-*/g)) {
            const range = document.createRange();
            range.setStart(node, word.index);
            range.setEnd(node, word.index + word[0].length);
            const lines = new Set([...range.getClientRects()].filter(it => it.width > 0).map(it => Math.round(it.top)));
            if (lines.size > 1) found.push(`broken: ${word[0]}`);
            const box = range.getBoundingClientRect();
            if (box.right > root.clientWidth + 1 || box.left < -1) found.push(`beside the screen: ${word[0]}`);
        }
    }
    return found;
})()"""


def follow_tab(count, viewer):
    """Tab stops once at each thing that can be used, there and back, and each table is one stop."""
    viewer.open_example()
    browser = viewer.browser
    browser.run(f"window.stops = {STOPS!r}, document.activeElement.blur()")
    there = []
    for at in range(len(STOPS)):
        browser.press('Tab')
        there.append(browser.run(f"document.activeElement.matches(stops[{at}]) || document.activeElement.outerHTML.slice(0, 60)"))
    same(count, 'the stops of Tab', there, [True] * len(STOPS))
    browser.run("window.met = new Set([document.activeElement])")
    back = [browser.run(f"document.activeElement.matches(stops[{len(STOPS) - 1}])")]
    for at in reversed(range(len(STOPS) - 1)):
        browser.press('Tab', 'Shift')
        back.append(browser.run(f"document.activeElement.matches(stops[{at}]) && !met.has(document.activeElement) && Boolean(met.add(document.activeElement))"))
    same(count, 'the stops of Tab back', back, [True] * len(STOPS))
    outlines = browser.run("""[...document.querySelectorAll('a, button, input, summary, .box')].filter(it => it.checkVisibility()).filter(it => {
        it.focus({ focusVisible: true });
        return document.activeElement === it && getComputedStyle(it).outlineStyle === 'none';
    }).map(it => it.outerHTML.slice(0, 60))""")
    same(count, 'what has the focus is seen', outlines, [])


def booked(lines):
    """Ledger lines of one party each."""
    for at in range(lines):
        yield f'GBABC24{at:05}', 'GB', 'OnDemandStream', 'GBP', at, (at + 1) * 10 ** 8, [(f'Party {at % 7}', 10 ** 7)]


def follow_keys(count, viewer):
    """The keys of the ledger, in a table of which few rows are there at once."""
    path = put(os.path.join(viewer.room, 'statement.tsv'), sealed_lines(statement_of(booked(LINES))))
    viewer.open([path])
    browser, run = viewer.browser, viewer.browser.run
    run("document.querySelector('#ledger input').focus()")
    browser.press('Tab', times=2)
    same(count, 'the first cell', run(ACTIVE), [True, '0', 'ISRC'])
    met = []
    for _ in range(120):
        met.append(int(run(ACTIVE)[1]))
        browser.press('ArrowDown')
    same(count, 'each row once', met, list(range(120)))
    in_view = """(() => {
        const box = document.querySelector('#ledger .box').getBoundingClientRect(), cell = document.querySelector('#ledger .active').getBoundingClientRect();
        return cell.top >= box.top + 35 && cell.bottom <= box.bottom + 1;
    })()"""
    for key, modifier, wanted in (
            ('ArrowUp', None, '119'), ('PageDown', None, None), ('PageUp', None, '119'), ('End', 'Control', str(LINES - 1)), ('ArrowDown', None, str(LINES - 1)),
            ('Home', 'Control', '0'), ('PageUp', None, '0')):
        browser.press(key, modifier)
        found = run(ACTIVE)
        count.check(f'{modifier or ""} {key}', [] if found[0] and wanted in (None, found[1]) and run(in_view) else [f'{found}, in view {run(in_view)}'])
    for key, wanted in (('ArrowRight', 'Territory'), ('End', 'Parties'), ('ArrowRight', 'Parties'), ('ArrowLeft', 'Unclaimed'), ('Home', 'ISRC'), ('ArrowLeft', 'ISRC')):
        browser.press(key)
        same(count, f'{key} to {wanted}', run(ACTIVE), [True, '0', wanted])
    follow_scroll(count, viewer)
    follow_head(count, viewer)


def follow_scroll(count, viewer):
    """The focus and the active cell stay while the wheel of the mouse moves the rows; the next arrow goes on from there."""
    browser, run = viewer.browser, viewer.browser.run
    browser.press('ArrowDown', times=5)
    rows = "[...document.querySelectorAll('#ledger .body .row')].map(it => +it.dataset.at)"
    for _ in range(100):
        browser.wheel("document.querySelector('#ledger .box')", 9000)
        time.sleep(0.2)
        if run(f"{rows}.some(at => at > 200)"):
            break
    same(count, 'the wheel moves the rows', run(f"{rows}.some(at => at > 200)"), True)
    same(count, 'the focus while rows scroll', run(ACTIVE), [True, '5', 'ISRC'])
    found = run(rows)
    same(count, 'rows in their order, each once', found, sorted(set(found)))
    browser.press('ArrowDown')
    same(count, 'an arrow after it', run(ACTIVE), [True, '6', 'ISRC'])
    browser.wait("document.querySelector('#ledger .box').scrollTop < 400")
    browser.press('Tab', 'Shift')
    same(count, 'Tab back from there', run("document.activeElement.matches('#ledger .save')"), True)
    browser.press('Tab')
    same(count, 'and to it again', run(ACTIVE), [True, '6', 'ISRC'])


def follow_head(count, viewer):
    """Sorting and opening by the keyboard, and a search that is typed."""
    browser, run = viewer.browser, viewer.browser.run
    browser.press('Enter')
    browser.wait("document.querySelector('dialog').open")
    same(count, 'a line by Enter', viewer.text('dialog h3'), 'GBABC2400006')
    browser.press('Escape')
    browser.wait("!document.querySelector('dialog').open")
    same(count, 'the focus after it', run(ACTIVE), [True, '6', 'ISRC'])
    browser.press('Home', 'Control')
    browser.press('ArrowUp')
    same(count, 'the names of the columns', run(ACTIVE), [True, '-1', 'ISRC'])
    browser.press('ArrowRight', times=5)
    browser.press('Enter')
    browser.wait("document.querySelector('#ledger .body .row').innerText.includes('GBABC2402999')")
    same(count, 'sorted by Enter', run("[...document.querySelectorAll('#ledger [aria-sort]')].map(it => it.dataset.name + it.getAttribute('aria-sort')).join()"), 'Amountdescending')
    same(count, 'the focus stays', run(ACTIVE), [True, '-1', 'Amount'])
    browser.press('Tab', 'Shift', times=2)
    browser.type('party 3 0.04')
    browser.wait("document.querySelector('#ledger output').textContent.includes('1 of')")
    same(count, 'a search that is typed', viewer.told('ledger'),
         f'Part of Party 3, in 1 line:; GBP 0.0010000000; 1 of {LINES // 1000}\u202f000 lines; GBP 0.0400000000')


def follow_contrast(count, viewer):
    for scheme in ('light', 'dark'):
        viewer.browser.show(scheme=scheme)
        viewer.open_example()
        viewer.browser.run("document.querySelectorAll('details').forEach(it => { it.open = true; })")
        viewer.search('ledger', 'ada')
        seen, found = viewer.browser.run(CONTRAST)
        same(count, f'contrast, {scheme}', [seen > 300, found], [True, []])
    viewer.browser.show()


def follow_rules(count, viewer):
    viewer.open_example()
    same(count, 'names and roles', viewer.browser.run(RULES), [])
    viewer.browser.click("document.querySelectorAll('#ledger .body .link')[0]")
    same(count, 'names and roles of a line by itself', viewer.browser.run(RULES), [])
    viewer.browser.press('Escape')


def follow_narrow(count, viewer):
    """At 390 pixels."""
    viewer.browser.show(390, 844)
    viewer.open_example()
    viewer.browser.run("document.querySelectorAll('details').forEach(it => { it.open = true; })")
    shas = re.compile('broken: [0-9a-f]{40,}')
    same(count, 'at 390 pixels', [it for it in viewer.browser.run(NARROW) if not shas.match(it)], [])
    viewer.search('ledger', 'ada')
    same(count, 'a search at 390 pixels', [it for it in viewer.browser.run(NARROW) if not shas.match(it)], [])
    same(count, 'names and roles at 390 pixels', viewer.browser.run(RULES), [])
    path = put(os.path.join(viewer.room, 'statement.tsv'), sealed_lines(statement_of(booked(LINES))))
    viewer.open([path])
    rows = "document.querySelectorAll('#ledger .body .row').length"
    same(count, 'the first lines at 390 pixels', [viewer.browser.run(rows), viewer.text('#ledger .next')], [50, 'Show more of 2 950 lines'])
    viewer.browser.click("document.querySelector('#ledger .next')")
    same(count, 'more of them', viewer.browser.run(rows), 100)
    viewer.browser.show()


def follow_print(count, viewer):
    """On paper: the names of the columns on each page, the lines that the screen shows or how many are left out, and for what was searched."""
    browser, run = viewer.browser, viewer.browser.run
    path = put(os.path.join(viewer.room, 'statement.tsv'), sealed_lines(statement_of(booked(LINES))))
    viewer.open([path])
    rows = "(dispatchEvent(new Event('beforeprint')), document.querySelectorAll('#ledger .body .row').length)"
    same(count, 'the rows for the printer', [run(rows), run("document.querySelector('#ledger .more').textContent")],
         [1000, 'Lines that are not printed: 2\u202f000. The statement has all of them.'])
    browser.show(media='print')
    same(count, 'the names of the columns are a head', run("getComputedStyle(document.querySelector('#ledger .head')).display"), 'table-header-group')
    same(count, 'no line is cut on paper', run("""[...document.querySelectorAll('#ledger .cell')].filter(it => it.scrollWidth > it.clientWidth + 1).length"""), 0)
    browser.show()
    run("dispatchEvent(new Event('afterprint'))")
    same(count, 'the rows after it', run("document.querySelectorAll('#ledger .body .row').length < 100"), True)
    told = viewer.search('ledger', 'gbabc2400')
    text = printed(viewer)
    if text is None:
        count.skip('the printed pages', 'there is no pdftotext')
    else:
        pages = [page for page in text.split('\f') if re.search(r'GBABC24\d{5}', page)]
        same(count, 'the lines on paper', [told[:5], len(set(re.findall(r'GBABC24\d{5}', text)))], ['1\u202f000', 1000])
        same(count, 'heads on each page', [len(pages) > 3, [at for at, page in enumerate(pages) if 'ISRC' not in page or 'Unclaimed' not in page]], [True, []])
        same(count, 'what was searched for', 'Lines that were searched for: gbabc2400.' in text, True)


def follow_paper(count, viewer):
    """Lines with many cells, or long ones, are on the paper as a whole."""
    cells = '\t'.join(f'cell{at}' for at in range(67))
    text = f'HEAD\tR1\t1\t1\t2024-01-01\t2024-01-31\t{"Sender " * 30}\t{"x" * 400}\nSY01\tS1\tGB\tStream\tGBP\t2\t2\nAS01\t{cells}\n'
    viewer.open(['-', put(os.path.join(viewer.room, 'in1.tsv'), text)], given=sealed([text.encode()]).encode())
    viewer.browser.show(718, media='print')
    wide = "[document.documentElement.scrollWidth, [...document.querySelectorAll('td, th')].filter(it => it.getBoundingClientRect().right > 719).length]"
    same(count, 'lines on paper', viewer.browser.run(wide), [718, 0])
    viewer.browser.show()


def printed(viewer):
    """The text of the page on paper, or None without the program that has it of a PDF."""
    content = base64.b64decode(viewer.browser.ask('Page.printToPDF')['data'])
    if not shutil.which('pdftotext'):
        return None
    path = put(os.path.join(viewer.room, 'page.pdf'), content)
    return subprocess.run(['pdftotext', '-layout', path, '-'], capture_output=True, check=True).stdout.decode()


def follow_access(count, viewer):
    follow_tab(count, viewer)
    follow_keys(count, viewer)
    follow_contrast(count, viewer)
    follow_rules(count, viewer)
    follow_narrow(count, viewer)
    follow_print(count, viewer)
    follow_paper(count, viewer)
    count.check('nothing is asked of a network by any of this', viewer.problems())
