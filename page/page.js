// What the page does: its tables, a line by itself, letters to copy, and how many decimals are shown.

/** Shows a line by itself, with the amount of each party, each to list its lines. */
function showLine(ledger, at) {
  const dialog = document.querySelector('dialog'), table = element('table'), names = ledger.namesOf(at);
  const row = (name, units) => {
    const made = element('tr'), first = element('td'), last = element('td', 'right');
    first.append(name);
    last.append(numberElement(written(units)));
    made.append(first, last);
    table.append(made);
  };
  const isAlike = name => ledger.alike.get(name)?.some(it => it !== name && names.includes(it));
  names.forEach((name, each) => {
    const party = ledger.party[ledger.begin[at] + each];
    const made = button('party', '', () => { dialog.close(); showLines(ledger, party); });
    made.append(nameElement(name), ...(isAlike(name) ? [' ', element('em', '', toldAlike(name))] : []));
    row(made, BigInt(ledger.parts[ledger.begin[at] + each]));
  });
  row('unclaimed', ledger.rests[at]);
  row('the line', ledger.amounts[at]);
  dialog.setAttribute('aria-label', `Line of ${ledger.isrcs[at]}`);
  dialog.lastElementChild.replaceChildren(element('h3', '', ledger.isrcs[at]), element('p', 'title', visible(ledger.titles[at])),
    element('p', 'kind', `${ledger.markets[ledger.market[at]].join(', ')}, usages ${ledger.usages[at]}`), table);
  dialog.showModal();
}

/** Goes to the ledger, with the lines of a party. */
async function showLines(ledger, party) {
  await ledger.choose(party);
  document.getElementById('ledger').scrollIntoView();
  ledger.table.box.focus({ preventScroll: true });
}

/** Copies the text of a letter, or selects it where the browser does not let a page copy. */
async function copyLetter(article) {
  const text = article.querySelector('pre'), told = article.querySelector('[role=status]');
  try {
    await navigator.clipboard.writeText(text.textContent);
    told.textContent = 'Copied.';
  } catch {
    getSelection().selectAllChildren(text);
    told.textContent = 'Selected: press Ctrl+C.';
  }
}

function listen(tables) {
  document.querySelectorAll('.letter').forEach(it => it.querySelector('.copy').addEventListener('click', () => copyLetter(it)));
  const decimals = document.querySelector('#decimals');
  decimals.addEventListener('change', () => {
    document.documentElement.dataset.decimals = decimals.checked ? 'all' : 'two';
    tables.forEach(it => { it.setColumns(); it.mark(); });
  });
  addEventListener('beforeprint', () => tables.forEach(it => it.print()));
  addEventListener('afterprint', () => tables.forEach(it => it.printed()));
}

async function main() {
  const facts = document.getElementById('facts');
  const known = JSON.parse(facts.textContent);
  facts.remove();
  const section = name => document.getElementById(name);
  const named = known.partyTotals.map(([party, ...rest]) => [known.parties[party], ...rest]);
  const alike = new Map(known.alike.flatMap(group => group.map(party => [known.parties[party], group.map(it => known.parties[it])])));
  const ledger = new Ledger(known, alike);
  const tables = [
    new Table(section('parties'), new Totals(named, PARTY, 'Search party or currency', alike,
      at => showLines(ledger, known.partyTotals[at][0]))),
    new Table(section('markets'), new Totals(known.marketTotals, MARKET, 'Search territory, use type, currency')),
    ledger.table = new Table(section('ledger'), ledger),
  ];
  listen(tables);
  await Promise.all([tables[0].renew(), tables[1].renew()]);
  await ledger.load();
  await ledger.table.renew();
  document.documentElement.dataset.ready = 'yes';
}

main();
