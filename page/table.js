// A table of any number of rows, to search, sort and save: an ARIA grid, which is one stop of the Tab key.

const ROW = 32;                  // the height of a row, as in page.css
const HEAD = 36;                 // that of the names of the columns
const PRINTED = 1000;            // rows that are printed of a longer table
const MOST = 250;                // rows that are elements at once on a screen, however high it is
const FLOW = 50;                 // rows that are shown at first, and more of each time, where the page is narrow
const NARROW = matchMedia('(max-width: 44rem)');

/**
 * A table of which only the rows in view are elements; where the page is narrow they are cards one below another. `source` has
 * `count`, `columns`, `matcher`, which answers a promise of what a search finds, `heads` and `records` for a file, and maybe
 * `sums` of the rows that were found and `use`, for a row that is chosen.
 * A column has `name`, its least width and its part of the rest (`widths`), `fill(cell, row)`, and `compare(a, b)` if it can
 * be sorted by, maybe with `key(row)`, a whole number below 2^32 in the same order, which tells most rows apart.
 */
class Table {
  constructor(section, source) {
    this.source = source;
    this.name = section.id;
    this.turn = 0;
    this.rows = new Map();
    this.order = this.by = null;
    this.words = '';
    this.found = new Uint32Array(0);
    this.shown = FLOW;
    this.active = { row: 0, column: 0 };
    this.build(section);
  }

  build(section) {
    this.input = element('input');
    this.input.type = 'search';
    this.input.placeholder = this.source.hint;
    this.input.setAttribute('aria-label', this.source.hint);
    this.input.addEventListener('input', () => this.search(this.input.value));
    this.told = element('output');
    this.box = element('div', 'box');
    this.box.tabIndex = 0;
    this.box.setAttribute('role', 'grid');
    this.box.setAttribute('aria-label', section.querySelector('h2').textContent);
    this.head = element('div', 'head');
    this.body = element('div', 'body');
    this.head.setAttribute('role', 'rowgroup');
    this.body.setAttribute('role', 'rowgroup');
    this.next = button('next', '', () => this.showMore());
    this.more = element('p', 'more');
    this.box.append(this.head, this.body);
    const tools = element('div', 'tools');
    tools.append(this.input, ...(this.source.tools ?? []), button('save', 'Save as CSV', () => this.save()), this.told);
    section.append(tools, this.box, this.next, this.more);
    this.heights = new Heights(this.box);
    this.listen();
    this.setColumns();
  }

  listen() {
    this.box.addEventListener('scroll', () => this.show());
    addEventListener('resize', () => this.show());
    NARROW.addEventListener('change', () => this.lay());
    this.box.addEventListener('keydown', event => this.key(event));
    this.box.addEventListener('focus', () => this.mark());
    this.box.addEventListener('click', event => {
      const cell = event.target.closest('.cell');
      if (!cell || !getSelection().isCollapsed) return;
      this.active = { row: +cell.parentNode.dataset.at, column: [...cell.parentNode.children].indexOf(cell) };
      this.mark();
      this.use();
    });
  }

  /** The columns of the source, which may have changed, and their widths. */
  setColumns() {
    this.columns = this.source.columns;
    const widths = this.columns.map(it => it.widths());
    this.box.style.setProperty('--columns', widths.map(([least, part]) => `minmax(${least}rem, ${part}fr)`).join(' '));
    this.box.style.setProperty('--least', `${widths.reduce((sum, [least]) => sum + least, 1)}rem`);
    this.box.setAttribute('aria-colcount', this.columns.length);
    const row = this.rowOf(-1, 'columnheader', (cell, column) => {
      cell.textContent = column.name;
      if (column.compare) cell.classList.add('sorts');
      if (this.by?.column.name === column.name) cell.setAttribute('aria-sort', this.by.sign > 0 ? 'ascending' : 'descending');
    });
    row.classList.add('names');
    this.head.replaceChildren(row);
  }

  /** An element for a row, whose cells are filled. */
  rowOf(at, role, fill) {
    const row = element('div', 'row');
    row.setAttribute('role', 'row');
    row.setAttribute('aria-rowindex', at + 2);
    row.dataset.at = at;
    this.columns.forEach((column, place) => {
      const cell = element('div', column.right ? 'cell right' : 'cell');
      cell.id = `${this.name}-${at}-${place}`;
      cell.setAttribute('role', role);
      cell.setAttribute('aria-colindex', place + 1);
      cell.dataset.name = column.name;
      fill(cell, column);
      row.append(cell);
    });
    return row;
  }

  /** Sorts by a column; once more, the other way round; a third time, as at first. */
  sort(column) {
    const signs = column.right ? [-1, 1] : [1, -1];
    const sign = signs[signs.indexOf(this.by?.column.name === column.name ? this.by.sign : 0) + 1];
    this.by = sign ? { column, sign } : null;
    this.order = null;
    this.setColumns();
    this.mark();
    return this.renew();
  }

  search(text) {
    this.words = text;
    return this.renew();
  }

  /** Finds the rows, and sorts them if another order was asked for; a later call makes this one stale. */
  async renew() {
    const turn = ++this.turn, isStale = () => turn !== this.turn;
    const busy = setTimeout(() => { this.told.textContent = 'working ..'; }, 150);
    const words = this.words.toLowerCase().split(/\s+/).filter(it => it).slice(0, 30);
    const test = await this.source.matcher(words, isStale);
    if (!this.order || this.by?.column.changes) {
      const order = this.by ? await sorted(this.source.count, this.by, isStale) : numbers(this.source.count);
      if (!order || isStale()) return clearTimeout(busy);
      this.order = order;
    }
    const found = new Uint32Array(this.source.count), sums = this.source.sums?.();
    let length = 0;
    const whole = !isStale() && await slices(this.source.count, at => {
      const row = this.order[at];
      if (test && !test(row)) return;
      found[length++] = row;
      sums?.add(row);
    }, isStale);
    clearTimeout(busy);
    if (whole) this.set(found.subarray(0, length), sums);
  }

  /** Shows other rows. */
  set(found, sums) {
    const [whole, own] = sums?.parts() ?? [[], []];
    this.found = found;
    if (this.source.columns !== this.columns) this.setColumns();
    this.shown = FLOW;
    this.active.row = Math.min(this.active.row, 0);
    this.active.column = Math.min(this.active.column, this.columns.length - 1);
    const some = found.length < this.source.count ? ` of ${grouped(String(this.source.count))}` : '';
    const lines = element('div'), parts = element('div', 'own');
    lines.append(element('span', '', grouped(String(found.length)) + some + (this.source.count === 1 ? ' line' : ' lines')), ...whole);
    parts.append(...own);
    this.told.replaceChildren(...(own.length ? [parts] : []), lines);
    this.box.setAttribute('aria-rowcount', found.length + 1);
    this.lay();
  }

  /** Lays the rows out anew. */
  lay() {
    for (const row of this.rows.values()) row.remove();
    this.rows.clear();
    this.flows = NARROW.matches;
    this.heights.set(this.found.length * ROW);
    this.body.style.height = this.flows ? 'auto' : `${this.heights.laid}px`;
    this.box.scrollTop = 0;
    this.show();
    this.mark();
  }

  /** Makes the rows in view, and removes the others but the active one. */
  show() {
    if (this.printing) return;
    const top = this.flows ? 0 : this.heights.top();
    const first = Math.max(0, Math.floor(top / ROW) - 4);
    const below = Math.min(Math.ceil((top + this.box.clientHeight) / ROW) + 4, first + MOST);
    const end = Math.min(this.found.length, this.flows ? this.shown : below);
    this.take(first, end, this.heights.offset);
    const left = this.flows ? this.found.length - end : 0;
    this.next.hidden = !left;
    this.next.textContent = `Show more of ${grouped(String(left))} lines`;
  }

  showMore() {
    this.shown += FLOW;
    this.show();
  }

  take(first, end, offset) {
    for (const [at, row] of this.rows) {
      if ((at < first || at >= end) && (at !== this.active.row || this.printing)) {
        row.remove();
        this.rows.delete(at);
      }
    }
    for (let at = first; at < end; at++) this.made(at);
    for (const [at, row] of this.rows) row.style.transform = this.flows ? '' : `translateY(${at * ROW - offset}px)`;
  }

  /** The row of a place, which is made if it is not there; rows stand in their order. */
  made(at) {
    if (this.rows.has(at)) return;
    const row = this.rowOf(at, 'gridcell', (cell, column) => column.fill(cell, this.found[at]));
    this.rows.set(at, row);
    let after = this.body.lastElementChild;
    while (after && +after.dataset.at > at) after = after.previousElementSibling;
    if (after) after.after(row);
    else this.body.prepend(row);
  }

  /** What a key does: it moves to another cell, or uses the one that is active. */
  key(event) {
    const { row, column } = this.active, last = this.found.length - 1;
    const page = Math.max(1, Math.floor(this.box.clientHeight / ROW) - 2), ends = event.ctrlKey || event.metaKey;
    const moves = {
      ArrowUp: [row - 1, column], ArrowDown: [row + 1, column], ArrowLeft: [row, column - 1], ArrowRight: [row, column + 1],
      PageUp: [Math.max(row - page, Math.min(row, 0)), column], PageDown: [row + page, column],
      Home: [ends ? 0 : row, 0], End: [ends ? last : row, this.columns.length - 1],
    };
    if (event.altKey || !(event.key in moves || event.key === 'Enter' || event.key === ' ')) return;
    event.preventDefault();
    if (event.key in moves) this.moveTo(...moves[event.key]);
    else this.use();
  }

  moveTo(row, column) {
    this.active = {
      row: Math.min(Math.max(row, -1), this.found.length - 1),
      column: Math.min(Math.max(column, 0), this.columns.length - 1),
    };
    this.reveal();
    this.mark();
  }

  /** Scrolls so far that the active row is in view. */
  reveal() {
    const at = this.active.row, top = at * ROW;
    if (at >= 0 && this.flows) {
      this.shown = Math.max(this.shown, at + 1);
    } else if (at >= 0) {
      const from = this.heights.top(), view = this.box.clientHeight - HEAD - ROW;
      if (top < from) this.heights.to(top);
      else if (top > from + view) this.heights.to(top - view);
    }
    this.show();
  }

  /** Marks the active cell, which the box has the focus for. */
  mark() {
    this.box.querySelector('.active')?.classList.remove('active');
    const { row, column } = this.active;
    if (row >= 0 && row < this.found.length) {
      this.made(row);
      this.show();
    }
    const cell = document.getElementById(`${this.name}-${row}-${column}`);
    if (!cell) return this.box.removeAttribute('aria-activedescendant');
    cell.classList.add('active');
    this.box.setAttribute('aria-activedescendant', cell.id);
    if (document.activeElement === this.box && (this.flows || this.box.scrollWidth > this.box.clientWidth)) {
      cell.scrollIntoView({ block: 'nearest', inline: 'nearest' });
    }
  }

  use() {
    const { row, column } = this.active;
    if (row >= 0 && row < this.found.length) this.source.use?.(this.found[row], this.columns[column]);
    else if (row < 0 && this.columns[column].compare) this.sort(this.columns[column]);
  }

  save() {
    const name = `${document.querySelector('h1').textContent}-${this.name}`;
    return saveCsv(name, this.source.heads(), this.found, row => this.source.records(row));
  }

  /** Has the first rows for the printer, whichever are in view. */
  print() {
    this.printing = true;
    const end = Math.min(this.found.length, PRINTED), left = this.found.length - end;
    this.take(0, end, 0);
    const searched = this.words.trim() ? `Lines that were searched for: ${visible(this.words.trim())}. ` : '';
    this.more.textContent = searched + (left ? `Lines that are not printed: ${grouped(String(left))}. The statement has all of them.` : '');
  }

  printed() {
    this.printing = false;
    this.more.textContent = '';
    this.show();
  }
}
