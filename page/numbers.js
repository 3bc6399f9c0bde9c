'use strict';
// Numbers and elements. Amounts and usages are BigInt; every text is put in as text, never as markup.

const SLICE = 12;                // milliseconds of work before the browser gets its turn
const RUN = 2048;                // rows that are sorted at once
const UNITS = 10n ** 10n;

const pause = () => new Promise(done => setTimeout(done));
let until = 0;                   // when the browser gets its turn

/**
 * Calls `step` with 0, 1, .. below `count`, and lets the browser work between them, where the time is looked at after every
 * so many; false if it became stale before the end. Calls that follow on one another share a slice of work.
 */
async function slices(count, step, isStale = () => false, every = 128) {
  for (let at = 0; at < count; at++) {
    step(at);
    if (at % every === every - 1 && performance.now() > until) {
      await pause();
      if (isStale()) return false;
      until = performance.now() + SLICE;
    }
  }
  return true;
}

/** The numbers 0, 1, .. below `count`. */
function numbers(count) {
  const made = new Uint32Array(count);
  for (let at = 0; at < count; at++) made[at] = at;
  return made;
}

/**
 * The rows in the order of a column, or the other way round if `sign` is -1, where those that compare as 0 keep theirs. Rows
 * are compared only where their keys are the same. Null if it became stale.
 */
async function sorted(count, { column, sign }, isStale) {
  const keys = new Uint32Array(count);
  if (column.key && !await slices(count, at => { keys[at] = column.key(at); }, isStale)) return null;
  const compare = (a, b) => sign * (keys[a] - keys[b] || column.compare(a, b));
  let from = numbers(count), to = new Uint32Array(count);
  const sortRun = at => from.subarray(at * RUN, (at + 1) * RUN).sort(compare);
  if (!await slices(Math.ceil(count / RUN), sortRun, isStale, 1)) return null;
  for (let width = RUN; width < count; width *= 2) {
    let left = 0, leftEnd = 0, right = 0, rightEnd = 0;
    const merge = at => {
      if (left === leftEnd && right === rightEnd) {
        left = at;
        leftEnd = right = Math.min(at + width, count);
        rightEnd = Math.min(at + 2 * width, count);
      }
      const takeLeft = left < leftEnd && (right === rightEnd || compare(from[left], from[right]) <= 0);
      to[at] = from[takeLeft ? left++ : right++];
    };
    if (!await slices(count, merge, isStale)) return null;
    [from, to] = [to, from];
  }
  return from;
}

const order = (a, b) => a < b ? -1 : a > b ? 1 : 0;
const grouped = digits => digits.replace(/\B(?=(\d{3})+$)/g, '\u202f');

/** An amount of units with its ten decimals. */
function written(units) {
  const size = units < 0n ? -units : units;
  return `${units < 0n ? '-' : ''}${size / UNITS}.${String(size % UNITS).padStart(10, '0')}`;
}

function element(name, style, text) {
  const made = document.createElement(name);
  if (style) made.className = style;
  if (text !== undefined) made.textContent = text;
  return made;
}

function button(style, text, act) {
  const made = element('button', style, text);
  made.type = 'button';
  made.addEventListener('click', act);
  return made;
}

/**
 * A whole number or an amount, in groups of three digits by style alone. Of an amount the last eight decimals are shown on
 * demand; a sign says that there are some.
 */
function numberElement(text) {
  const [, sign, whole, decimals] = /^(-?)(\d+)(\.\d+)?$/.exec(text);
  const made = element('span', decimals && /[1-9]/.test(decimals.slice(3)) ? 'number cut' : 'number', sign);
  for (let at = whole.length % 3 || 3, begun = 0; begun < whole.length; begun = at, at += 3) {
    made.append(begun ? element('b', '', whole.slice(begun, at)) : whole.slice(begun, at));
  }
  if (decimals) made.append(decimals.slice(0, 3), element('s', '', decimals.slice(3)));
  return made;
}

const showsAll = () => document.documentElement.dataset.decimals === 'all';

/** The width in rem of numbers of so many digits; an amount has two or ten decimals besides. */
const widthOfDigits = (digits, isAmount) => 0.68 * digits + (!isAmount ? 1.8 : showsAll() ? 7.4 : 3.4);

/** A bar of a part of a whole; a thousand steps are as fine as a bar needs. */
function bar(part, whole) {
  const made = element('span', part < 0n ? 'bar below' : 'bar');
  made.style.width = `${whole ? Number((part < 0n ? -part : part) * 1000n / whole) / 10 : 0}%`;
  return made;
}
