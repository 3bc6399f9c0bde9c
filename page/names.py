"""Names that look the same but are not, of which a party may be paid under each."""
import collections
import unicodedata

from showing import is_hidden

# Letters of the Greek and Cyrillic alphabets that look like Latin ones, those that differ little, and signs that are written in
# several ways.
LIKE = dict(zip('АВЕКМНОРСТУХІЈЅԌԚԜаеорсухіјѕԁһԛԝӏΑΒΕΖΗΙΚΜΝΟΡΤΥΧοανρικυχ1|i0’‘ʼ`´–—‑‒−',
                "ABEKMHOPCTYXIJSGQWaeopcyxijsdhqwlABEZHIKMNOPTYXoavpikuxlllo'''''-----"))


def likeness(name):
    """A text that names have in common if they look alike: without what is not seen, and with one letter for each look."""
    plain = ''.join(LIKE.get(it, it) for it in unicodedata.normalize('NFKC', name) if it.isspace() or not is_hidden(it))
    return ''.join(LIKE.get(it, it) for it in ' '.join(plain.casefold().split()))


def other_letters(name):
    """The characters of a name by which it may differ from one that looks alike, as code points; hidden ones are written out anyway."""
    found = dict.fromkeys(f'U+{ord(it):04X}' for it in name if not it.isascii() and not is_hidden(it))
    return ', '.join(found)


def told_alike(name):
    """What is said beside a name that looks like another of its list."""
    letters = other_letters(name)
    return 'looks like another of this list' + (f', has {letters}' if letters else '')


def alike(names):
    """The groups of different names that look alike, each in the order of the list."""
    groups = collections.defaultdict(list)
    for name in dict.fromkeys(names):
        groups[likeness(name)].append(name)
    return [group for group in groups.values() if len(group) > 1]
