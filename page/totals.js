// The totals of markets and of parties, as dsr_totals has them.

const MARKET = ['Territory', 'Use type', 'Currency', 'Usages', 'Amount'];
const PARTY = ['Party', 'Currency', 'Amount'];
const WIDTHS = {
  Territory: [5.5, 1], 'Use type': [9, 2], Currency: [5.2, 1], Usages: [4.5, 1], Amount: [7, 2], Party: [12, 4],
};

/** Which of the words each text has, as bits; null if it became stale. */
async function bitsOf(texts, words, isStale) {
  const found = new Uint32Array(texts.length);
  const step = at => words.forEach((word, bit) => { if (texts[at].includes(word)) found[at] |= 1 << bit; });
  return await slices(texts.length, step, isStale) ? found : null;
}

/** Rows of texts and of one amount, with a bar. `alike` has the names that look like others, with these. */
class Totals {
  constructor(rows, names, hint, alike = new Map(), use = undefined) {
    Object.assign(this, { rows, hint, alike, use, names, count: rows.length });
    const last = names.length - 1, currency = names.indexOf('Currency');
    this.amounts = rows.map(row => BigInt(row[last]));
    const most = Object.create(null), size = at => this.amounts[at] < 0n ? -this.amounts[at] : this.amounts[at];
    rows.forEach((row, at) => { if (!(size(at) <= most[row[currency]])) most[row[currency]] = size(at); });
    this.columns = names.map((name, column) => this.column(name, column, last));
    this.columns.push({
      name: '', widths: () => [6, 3],
      fill: (cell, at) => {
        cell.append(bar(this.amounts[at], most[rows[at][currency]]));
        cell.setAttribute('aria-hidden', 'true');
      },
    });
  }

  column(name, column, last) {
    const { rows, amounts } = this, isAmount = column === last, isNumber = name === 'Usages' || isAmount;
    const numbers = isAmount ? amounts : isNumber ? rows.map(row => BigInt(row[column])) : null;
    const digits = (numbers ?? []).reduce((most, it) => Math.max(most, String(it).length - (isAmount ? 10 : 0)), 1);
    const [least, part] = WIDTHS[name];
    return {
      name, right: isNumber, widths: () => [numbers ? Math.max(4.5, widthOfDigits(digits, isAmount)) : least, part],
      compare: numbers ? (a, b) => order(numbers[a], numbers[b]) : (a, b) => order(rows[a][column], rows[b][column]),
      fill: (cell, at) => {
        const text = rows[at][column];
        if (isNumber) return cell.append(numberElement(isAmount ? written(amounts[at]) : text));
        cell.title = visible(text);
        cell.append(nameElement(text));
        if (column === 0 && this.use) cell.classList.add('link');
        if (column === 0 && this.alike.has(text)) this.markAlike(cell, text);
      },
    };
  }

  markAlike(cell, text) {
    const others = this.alike.get(text).filter(it => it !== text).map(visible).join(', ');
    cell.append(' ', element('em', 'alike', toldAlike(text)));
    cell.title = `looks like ${others}`;
  }

  async matcher(words, isStale) {
    if (!words.length) return null;
    this.texts ??= this.rows.map(row => row.join(' ').toLowerCase());
    const bits = await bitsOf(this.texts, words, isStale);
    const all = 2 ** words.length - 1;
    return bits && (at => bits[at] === all);
  }

  /** The names of the columns of a file. */
  heads() {
    return this.names;
  }

  records(at) {
    return [[...this.rows[at].slice(0, -1), written(this.amounts[at])]];
  }
}
