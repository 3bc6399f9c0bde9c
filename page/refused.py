"""Why no page and no explanation is made."""
import contextlib


class Refused(Exception):
    """A statement or a file that cannot be used, with the reason."""


@contextlib.contextmanager
def named(name):
    """Says of what a refusal is."""
    try:
        yield
    except Refused as refused:
        raise Refused(f'{name}: {refused}') from None
