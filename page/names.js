// Names as a reader sees them: characters that cannot be seen, or that move others, are written out, as <U+200B>.

const HIDDEN = /[\p{Cc}\p{Cf}\p{Zl}\p{Zp}\p{Cs}\p{Co}\p{Cn}\p{DI}\u2800]|(?! )\p{Zs}|^ +| +$/gu;
const spelled = text => [...text].map(it => `<U+${it.codePointAt(0).toString(16).toUpperCase().padStart(4, '0')}>`).join('');
const visible = text => text.replace(HIDDEN, spelled);

/** The characters of a name by which it may differ from one that looks alike, as code points. */
const otherLetters = text => [...new Set(text.replace(HIDDEN, '').replace(/[\0-\x7f]/g, ''))].map(it => spelled(it).slice(1, -1)).join(', ');

/** What is said beside a name that looks like another. */
const toldAlike = text => `looks like another${otherLetters(text) ? `, has ${otherLetters(text)}` : ''}`;

/** A name, kept apart from the text around it. */
function nameElement(text) {
  const made = element('bdi');
  let from = 0;
  for (const found of text.matchAll(HIDDEN)) {
    made.append(text.slice(from, found.index), element('i', '', spelled(found[0])));
    from = found.index + found[0].length;
  }
  made.append(text.slice(from) || (text ? '' : '(no name)'));
  return made;
}

/** Names one after another, each by itself. */
function namesElement(names) {
  const made = element('span', 'list');
  names.forEach((name, at) => made.append(...(at ? [', '] : []), nameElement(name)));
  return made;
}
