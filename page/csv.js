// Tables as comma-separated values (RFC 4180). Numbers are exact. A text that a spreadsheet would take for a formula gets an
// apostrophe before it; a byte order mark says that the file is in UTF-8.

const FORMULA = /^[=+\-@\t\r\n\uff1d\uff0b\uff0d\uff20]/;
const NUMBER = /^-?\d+(\.\d+)?$/;

function csvCell(text) {
  const harmless = FORMULA.test(text) && !NUMBER.test(text) ? `'${text}` : text;
  return /[",\r\n]/.test(harmless) ? `"${harmless.replace(/"/g, '""')}"` : harmless;
}

const csvRow = cells => `${cells.map(csvCell).join(',')}\r\n`;

/** Saves rows to a file: `recordsOf` has those of each of the numbers. */
async function saveCsv(name, heads, found, recordsOf) {
  const parts = ['\ufeff', csvRow(heads)];
  await slices(found.length, at => { for (const record of recordsOf(found[at])) parts.push(csvRow(record)); });
  const link = element('a');
  link.href = URL.createObjectURL(new Blob(parts, { type: 'text/csv;charset=utf-8' }));
  link.download = `${name.replace(/[^\w.-]+/g, '_')}.csv`;
  link.click();
  setTimeout(() => URL.revokeObjectURL(link.href), 60000);
}
