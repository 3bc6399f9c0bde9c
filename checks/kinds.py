"""Writes large reports of one file, each of one kind: ordinary ones, and ones of valid but odd bytes."""
import random

OWNERS = [f'{a}{b}{c}' for a in 'ABCDEFGHIJ' for b in 'KLMNOPQRST' for c in 'UVWXYZ0123']


class Writer:
    """A file of a report that grows to about a size, and counts for its FOOT."""

    def __init__(self, out, size, summaries=12):
        self.rng = random.Random('odd')
        self.out = out
        self.left = size
        self.records = 0
        self.blocks = 0
        self.summaries = summaries
        self.put('HEAD\tODD\t1\t1\t2024-01-01\t2024-01-31\tNorthwind Music\tHarbour Rights')
        for at in range(summaries):
            self.put(f'SY01\tS{at}\t{("GB", "DE", "FR", "US")[at % 4]}\tUse{at // 4}\tGBP\t0\t0')

    def put(self, *records):
        text = '\n'.join(records) + '\n'
        self.out.write(text.encode())
        self.left -= len(text)
        self.records += len(records)

    def skipped(self, text):
        self.out.write(text)
        self.left -= len(text)

    def block(self, name, isrc, titles='Song', works=(('Ada Hart|Ben Cole', '50|25'),), usages=3, summary=None):
        lines = [f'AS01\t{name}\t{isrc}\t{titles}\tThe Lanterns']
        lines += [f'MW01\t{name}\tT-{at}\tSong\t{parties}\t{shares}' for at, (parties, shares) in enumerate(works)]
        for at in range(usages):
            named = self.rng.randrange(self.summaries) if summary is None else (summary + at) % self.summaries
            lines.append(f'SU01\t{name}\tS{named}\t{self.rng.randrange(5000)}\t{self.rng.randrange(900)}.{self.rng.randrange(100):02d}')
        self.put(*lines)
        self.blocks += 1

    def isrc(self, many=1000):
        """One of `many` recordings."""
        song = self.rng.randrange(many)
        return f'GB{OWNERS[song // 100_000 % 1000]}24{song % 100_000:05d}'

    def scattered(self):
        """A BlockId of its own."""
        return f'{self.rng.randrange(10 ** 15):015d}'

    def end(self):
        self.put(f'FOOT\t{self.records + 1}\t{self.summaries}\t{self.blocks}')


# The name of each kind, how many summaries it has, and what is written until the file is large enough, beside a block.
WORKS = [(f'Ada Hart|Party {at}', '0.5|0.25') for at in range(62)]
PARTIES = [('|'.join(f'{at:03x}' for at in range(1300)), '|'.join(['0'] * 1300))]
KINDS = [
    ('ordinary', 12, lambda w: w.block(w.blocks, w.isrc())),
    ('line feeds', 12, lambda w: w.skipped(b'\n' * 65_536)),
    ('lines of # alone', 12, lambda w: w.skipped(b'#\n' * 32_768)),
    ('long comments', 12, lambda w: w.skipped(b'#' + 'caf\u00e9 '.encode() * 1000 + b'\n')),
    ('one BlockId throughout', 12, lambda w: w.block('X', w.isrc())),
    ('scattered BlockIds', 12, lambda w: w.block(w.scattered(), w.isrc())),
    ('scattered ISRCs', 12, lambda w: w.block(w.blocks, w.isrc(100_000_000))),
    ('scattered BlockIds and ISRCs', 12, lambda w: w.block(w.scattered(), w.isrc(100_000_000))),
    ('1,000 summaries in turn', 1000, lambda w: w.block(w.blocks, w.isrc(), summary=3 * w.blocks)),
    ('blocks of 62 usages', 12, lambda w: w.block(w.blocks, w.isrc(), usages=62)),
    ('blocks of 62 works', 12, lambda w: w.block(w.blocks, w.isrc(), works=WORKS, usages=1)),
    ('works with 1,300 parties', 12, lambda w: w.block(w.blocks, w.isrc(), works=PARTIES)),
    ('list cells of 4,000 values', 12, lambda w: w.block(w.blocks, w.isrc(), titles='|'.join('abcdefgh'[at % 8] for at in range(4000)))),
]
ORDINARY, SCATTERED = KINDS[0], KINDS[7]
# blocks of 64 records, 62 of them works with 1,300 parties: the most memory for their bytes
WIDE_WORKS = [('|'.join('abcdefgh'[at % 8] for at in range(1300)), '|'.join(['0'] * 1300))] * 62
WIDE = 'wide', 12, lambda w: w.block(w.blocks, w.isrc(), works=WIDE_WORKS, usages=1)


def write(path, size, kind):
    """Writes a report of this kind and about this size, and returns its size."""
    _, summaries, step = kind
    with open(path, 'wb') as out:
        writer = Writer(out, size, summaries)
        while writer.left > 0:
            step(writer)
            if not writer.blocks:
                writer.block(0, writer.isrc())
        writer.end()
        return out.tell()
