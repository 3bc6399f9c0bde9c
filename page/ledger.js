// The lines of the ledger, in columns.

const LINE = ['ISRC', 'Titles', 'Territory', 'Use type', 'Currency', 'Usages', 'Amount'];

class Ledger {
  constructor(facts, alike) {
    Object.assign(this, { alike, markets: facts.markets, parties: facts.parties, count: facts.lines, digits: facts.digits });
    this.hasTitles = facts.hasTitles;
    for (const name of ['isrcs', 'usages', 'amounts', 'rests', 'titles']) this[name] = new Array(facts.lines);
    this.market = new Uint32Array(facts.lines);
    this.begin = new Uint32Array(facts.lines + 1);
    this.party = new Uint32Array(facts.parts);
    this.parts = new Array(facts.parts);
    this.hint = 'Search ISRC, title, territory, use type, party, amount';
    this.chosen = null;
    this.own = () => null;
    this.chip = button('chip', '', () => this.choose(null));
    this.chip.hidden = true;
    this.tools = [this.chip];
    [this.columnsOfLines, this.columnsWithPart] = this.columnsOf();
    this.columns = this.columnsOfLines;
  }

  /** Takes the lines from the page, and removes their data from it. */
  async load() {
    let lines = 0, begin = 0;
    for (const script of document.querySelectorAll('script.ledger')) {
      const piece = JSON.parse(script.textContent);
      script.remove();
      await slices(piece.isrc.length, at => {
        this.isrcs[lines] = piece.isrc[at];
        this.market[lines] = piece.market[at];
        this.usages[lines] = BigInt(piece.usages[at]);
        this.amounts[lines] = BigInt(piece.amount[at]);
        this.rests[lines] = BigInt(piece.unclaimed[at]);
        this.begin[++lines] = begin += piece.counts[at];
      });
      const first = begin - piece.party.length;
      await slices(piece.party.length, at => {
        this.party[first + at] = piece.party[at];
        this.parts[first + at] = piece.part[at];
      });
    }
    await this.loadTitles();
  }

  /** The titles of the recordings, in the order of the lines. */
  async loadTitles() {
    const titles = [...document.querySelectorAll('script.titles')].flatMap(script => {
      script.remove();
      return JSON.parse(script.textContent);
    });
    let recording = -1;
    await slices(this.count, at => {
      if (at === 0 || this.isrcs[at] !== this.isrcs[at - 1]) recording++;
      this.titles[at] = titles[recording] ?? '';
    });
  }

  columnsOf() {
    const text = (name, widths, place) => {
      const texts = this.markets.map(it => it[place]), inOrder = [...new Set(texts)].sort(order);
      const ranks = texts.map(it => inOrder.indexOf(it));
      return {
        name, widths: () => widths, key: at => ranks[this.market[at]], compare: () => 0,
        fill: (cell, at) => { cell.append(cell.title = texts[this.market[at]]); },
      };
    };
    const { usages, amount } = this.digits;
    const part = { ...this.number('Part', amount, true, at => this.own(at) ?? 0n), changes: true };
    part.fill = (cell, at) => { if (this.own(at) !== null) cell.append(numberElement(written(this.own(at)))); };
    const lines = [
      {
        name: 'ISRC', widths: () => [8.4, 0], compare: (a, b) => order(this.isrcs[a], this.isrcs[b]),
        fill: (cell, at) => { cell.classList.add('link'); cell.append(this.isrcs[at]); },
      },
      ...(this.hasTitles ? [this.texts('Title', [9, 2], at => this.titles[at] ? [this.titles[at]] : [])] : []),
      text('Territory', [5.6, 0], 0),
      text('Use type', [11, 1], 1),
      text('Currency', [5.2, 0], 2),
      this.number('Usages', usages, false, at => this.usages[at]),
      this.number('Amount', amount, true, at => this.amounts[at]),
      this.number('Unclaimed', amount, true, at => this.rests[at]),
      this.texts('Parties', [9, 2], at => this.namesOf(at)),
    ];
    return [lines, [...lines.slice(0, -2), part, ...lines.slice(-2)]];
  }

  // The key is the first 32 bits of the widest number: one of so many digits has at most 10 bits for each three.
  number(name, digits, isAmount, of) {
    const bits = BigInt(Math.max(0, Math.ceil((digits + (isAmount ? 10 : 0)) * 10 / 3) - 31));
    return {
      name, right: true, widths: () => [Math.max(widthOfDigits(digits, isAmount), 4.5), 1],
      key: at => Number((of(at) >> bits) + 2n ** 31n), compare: (a, b) => bits === 0n ? 0 : order(of(a), of(b)),
      fill: (cell, at) => cell.append(numberElement(isAmount ? written(of(at)) : String(of(at)))),
    };
  }

  texts(name, widths, of) {
    return {
      name, widths: () => widths, ...(name === 'Title' && { compare: (a, b) => order(this.titles[a], this.titles[b]) }),
      fill: (cell, at) => {
        cell.append(namesElement(of(at)));
        cell.title = of(at).map(visible).join(', ');
      },
    };
  }

  namesOf(at) {
    return Array.from(this.party.subarray(this.begin[at], this.begin[at + 1]), it => this.parties[it]);
  }

  /** Shows only the lines of a party, or those of all. */
  choose(party) {
    this.chosen = party;
    this.chip.hidden = party === null;
    if (party !== null) this.chip.replaceChildren('Lines of ', nameElement(this.parties[party]), ' \u00d7');
    this.chip.setAttribute('aria-label', party === null ? '' : `Lines of ${visible(this.parties[party])}: show all lines`);
    return this.table.renew();
  }

  use(at) {
    showLine(this, at);
  }

  /**
   * The test for all words: each is in the ISRC, the title, the territory, use type or currency, a party, or the amount. What
   * parties have of a line, `own` says: the one that was chosen, or those with all words, or, if there are none, those that have
   * the words which are not of the line itself.
   */
  async matcher(words, isStale) {
    this.own = () => null;
    if (!words.length && this.chosen === null) return null;
    this.lower ??= this.parties.map(name => name.toLowerCase());
    this.lowerTitles ??= this.hasTitles ? this.titles.map(title => title.toLowerCase()) : [];
    const inMarket = await bitsOf(this.markets.map(it => it.join(' ').toLowerCase()), words, isStale);
    const inParty = inMarket && await bitsOf(this.lower, words, isStale);
    if (!inParty) return null;
    const { chosen } = this, upper = words.map(it => it.toUpperCase()), isNumber = words.map(it => /^[-\d.]+$/.test(it));
    const all = 2 ** words.length - 1, isNamed = inParty.some(bits => bits !== 0), hasAll = inParty.includes(all);
    const inLine = at => words.reduce((bits, word, bit) => bits | (this.isrcs[at].includes(upper[bit])
      || this.hasTitles && this.lowerTitles[at].includes(word) || isNumber[bit] && written(this.amounts[at]).startsWith(word) ? 1 << bit : 0),
    inMarket[this.market[at]]);
    if (chosen !== null || isNamed) {
      this.own = at => {
        const wanted = hasAll ? all : chosen === null ? all & ~inLine(at) || all : 0;
        return this.sumOf(at, party => chosen === null ? (inParty[party] & wanted) === wanted : party === chosen);
      };
    }
    return at => {
      let bits = inMarket[this.market[at]], has = chosen === null;
      for (let each = this.begin[at]; each < this.begin[at + 1]; each++) {
        bits |= inParty[this.party[each]];
        has ||= this.party[each] === chosen;
      }
      return has && (bits === all || (bits | inLine(at)) === all);
    };
  }

  /** What these parties have of a line; null if none of them has a part. */
  sumOf(at, isMeant) {
    let sum = null;
    for (let each = this.begin[at]; each < this.begin[at + 1]; each++) {
      if (isMeant(this.party[each])) {
        sum = (sum ?? 0n) + BigInt(this.parts[each]);
        this.seen?.add(this.party[each]);
      }
    }
    return sum;
  }

  /** Exact sums over the rows that are added, by currency: of the lines, and of what the parties that were found have of them. */
  sums() {
    const found = new Map(), owned = new Map();
    let lines = 0;
    const add = (sums, at, units) => {
      const currency = this.markets[this.market[at]][2];
      sums.set(currency, (sums.get(currency) ?? 0n) + units);
    };
    this.seen = new Set();
    return {
      add: at => {
        const own = this.own(at);
        add(found, at, this.amounts[at]);
        if (own === null) return;
        add(owned, at, own);
        lines++;
      },
      parts: () => {
        const seen = [...this.seen];
        this.seen = null;
        this.columns = owned.size ? this.columnsWithPart : this.columnsOfLines;
        return [sumElements(found), owned.size ? [this.whose(seen, lines), ...sumElements(owned)] : []];
      },
    };
  }

  /** Whose part it is, and of how many lines. */
  whose(seen, lines) {
    const made = element('span', '', 'Part of ');
    made.append(seen.length === 1 ? nameElement(this.parties[seen[0]]) : `${grouped(String(seen.length))} parties`,
      `, in ${grouped(String(lines))} line${lines === 1 ? '' : 's'}:`);
    return made;
  }

  /** The names of the columns of a file. */
  heads() {
    return this.columns === this.columnsWithPart ? [...LINE, 'Party', 'Part'] : [...LINE, 'Unclaimed', 'Parties'];
  }

  /** The rows of a line in a file: one with its parties as a list, or one for each party that was found. */
  records(at) {
    const line = [this.isrcs[at], this.titles[at], ...this.markets[this.market[at]], String(this.usages[at]), written(this.amounts[at])];
    if (this.columns !== this.columnsWithPart) {
      const names = this.namesOf(at).map(name => name.replace(/[\\|]/g, '\\$&')).join('|');
      return [[...line, written(this.rests[at]), names]];
    }
    const rows = [];
    this.seen = new Set();
    this.own(at);
    for (let each = this.begin[at]; each < this.begin[at + 1]; each++) {
      if (this.seen.has(this.party[each])) rows.push([...line, this.parties[this.party[each]], written(BigInt(this.parts[each]))]);
    }
    this.seen = null;
    return rows.length ? rows : [[...line, '', '']];
  }
}

/** Sums as elements, by currency. */
const sumElements = sums => [...sums].sort(([a], [b]) => order(a, b)).map(([currency, units]) => {
  const made = element('span', 'sum-of', `${currency} `);
  made.append(numberElement(written(units)));
  return made;
});
