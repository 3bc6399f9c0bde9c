"""What a reader sees of a text: characters that cannot be seen, or that move others, are written out, as <U+200B>."""
import unicodedata

HIDDEN = ('Cc', 'Cf', 'Zl', 'Zp', 'Zs', 'Cs', 'Co', 'Cn')
RIGHT_TO_LEFT = ('R', 'AL')
MOST_SHOWN = 300


def has_no_ink(code):
    """Whether a letter or mark is invisible by itself: fillers, joiners and variation selectors."""
    return code in (0x34f, 0x115f, 0x1160, 0x17b4, 0x17b5, 0x2800, 0x3164, 0xffa0) or 0xfe00 <= code <= 0xfe0f or 0xe0100 <= code <= 0xe01ef


def spelled(character):
    """How a hidden character is written out; a byte that is not UTF-8 is a lone surrogate."""
    code = ord(character)
    return f'\\x{code - 0xdc00:02x}' if 0xdc80 <= code <= 0xdcff else f'<U+{code:04X}>'


def is_hidden(character):
    return character != ' ' and (unicodedata.category(character) in HIDDEN or has_no_ink(ord(character)))


def pieces(text):
    """The text in pairs: a piece, and whether it is a character that was written out. A space at an end is; a long text is cut."""
    begun, size, inner = '', 0, (len(text) - len(text.lstrip(' ')), len(text.rstrip(' ')))
    for at, character in enumerate(text):
        hidden = is_hidden(character) or character == ' ' and not inner[0] <= at < inner[1]
        size += len(spelled(character)) if hidden else 1
        if size > MOST_SHOWN:
            yield begun, False
            yield f' .. {len(text) - at} more', True
            return
        if hidden:
            yield begun, False
            yield spelled(character), True
        begun = '' if hidden else begun + character
    yield begun, False


def visible(text):
    return ''.join(piece for piece, _ in pieces(text))


def is_right_to_left(text):
    return any(unicodedata.bidirectional(it) in RIGHT_TO_LEFT for it in text)


class CleanStream:
    """A stream of text for a terminal: whatever is written, no control character but the line feed is passed on, and no character
    that cannot be seen or that moves others."""

    CONTROLS = {code: spelled(chr(code)) for code in (*range(10), *range(11, 32), 127)}

    def __init__(self, stream):
        stream.reconfigure(encoding='utf-8', errors='backslashreplace', newline='\n')
        self.stream = stream

    def write(self, text):
        if text.isascii():
            return self.stream.write(text.translate(self.CONTROLS))
        return self.stream.write(''.join(spelled(it) if it != '\n' and is_hidden(it) else it for it in text))

    def flush(self):
        self.stream.flush()


def rows_of(layout, lines):
    """The rows of a table of lines: for each line its own, and before it one of names if its role is not the last one's.
    A row is its number (None for names), its cells and the positions that are marked."""
    role = None
    for line in lines:
        cells = [*line.cells, *([f'{line.missing} is missing'] if line.missing else [])]
        if line.role and line.role != role:
            yield None, layout.names(line.role, len(line.cells)) + [''] * bool(line.missing), set()
        role = line.role
        marked = line.marked | ({len(line.cells)} if line.missing else set())
        yield line.number, cells, marked
