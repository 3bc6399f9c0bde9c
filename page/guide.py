"""The entries of docs/GUIDE.md: what a fault, a standing, a reason or a line means, and what to ask the sender."""
import os
import re

from refused import Refused

HERE = os.path.dirname(os.path.realpath(__file__))
GUIDE = os.path.join(HERE, '..', 'docs', 'GUIDE.md')


# What the guide calls the points of an entry, and what they are called where it is shown.
LABELS = {'Cause': 'Usual cause', 'Ask': 'Ask the sender', 'Kept': 'Kept and paid'}


class Entry:
    """The meaning of a name, and its points: pairs of a label, such as `Ask the sender`, and a text."""

    def __init__(self, meaning, points):
        self.meaning = meaning
        self.points = points


class Guide(dict):
    """The entries by their names."""

    def __missing__(self, name):
        raise Refused(f'docs/GUIDE.md has no entry {name}')


def plain(markdown):
    """A paragraph without its marks."""
    text = re.sub(r'\[([^]]*)\]\([^)]*\)', r'\1', markdown)
    return re.sub(r'`([^`]*)`', r'\1', text.replace('**', '')).strip()


def entry_of(text):
    """The entry below a heading: its first paragraph without the case, and its points; two labels may have one point."""
    label = '|'.join(LABELS)
    meaning = re.sub(r' \(`cases/\w+`\)', '', re.split(r'\n(?:\n|- )', text.strip())[0])
    points = re.findall(rf'^- ((?:{label})(?:, (?:{label}))*): (.*)$', text, re.M)
    return Entry(plain(meaning), [(LABELS[each], plain(point)) for labels, point in points for each in labels.split(', ')])


def answered(entries, entry):
    """The points of an entry; one that only says `See NAME.` has the answer of that entry."""
    found = []
    for label, text in entry.points:
        other = re.fullmatch(r'See (\w+)\.', text)
        known = dict(entries[other[1]].points) if other and other[1] in entries else {}
        found.append((label, known.get(label, text)))
    return found


def entries_of(section):
    """The entries of a section by their names. Those that lack a point of the section's beginning have it too."""
    begin, *parts = re.split(r'^### (.*)$', section, flags=re.M)
    shared = entry_of(begin).points
    for title, text in zip(parts[::2], parts[1::2]):
        entry = entry_of(text)
        own = [label for label, _ in entry.points]
        yield title.strip('`'), Entry(entry.meaning, entry.points + [point for point in shared if point[0] not in own])


def read_guide(path=GUIDE):
    """The entries by their names."""
    with open(path, encoding='utf-8') as file:
        entries = Guide(entry for section in re.split(r'^## ', file.read(), flags=re.M) for entry in entries_of(section))
    for entry in entries.values():
        entry.points = answered(entries, entry)
    return entries
