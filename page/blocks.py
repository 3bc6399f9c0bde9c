"""The rejected blocks of a file on the page, by their reasons."""
import collections

from markup import entry_list, escaped, line_table

MOST_BLOCKS = 1000


class RejectedBlocks:
    """Takes the blocks as they are found, and keeps the first of each reason."""

    def __init__(self, layout):
        self.layout = layout
        self.blocks = collections.defaultdict(list)

    def take(self, reject, lines, note):
        kept = self.blocks[reject.reason]
        if len(kept) < MOST_BLOCKS:
            at = f', line {lines[0].number}' if lines else ''
            note = f' <small>{escaped(note)}</small>' if note else ''
            title = f'<h4>Block {reject.position}{at}, BlockId {escaped(reject.block)}{note}</h4>'
            kept.append(title + (line_table(self.layout, lines) if lines else ''))

    def cards(self, file, entries):
        """A card for each reason: its entry, and its blocks, folded if they are many."""
        counts = collections.Counter(reject.reason for reject in file.rejects)
        for reason, blocks in self.blocks.items():
            count, more = counts[reason], counts[reason] - len(blocks)
            left = f'<p>{more} more blocks are not shown: <code>dsr_explain</code> prints all.</p>' if more else ''
            how_many = f'{count} block{"s" if count > 1 else ""}'
            yield (f'<article><h3>{escaped(file.called())}, {how_many} left out <code>{reason}</code></h3>\n'
                   f'<details{" open" if count <= 3 else ""}><summary>{how_many}</summary>\n'
                   f'{"".join(blocks)}{left}</details>{entry_list(entries[reason])}</article>\n')
