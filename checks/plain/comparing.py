"""Compares a built program with a second one on generated cases: what checks/plain/run and checks/plain/totals_run share."""
import collections
import functools
import multiprocessing
import os
import shutil
import socket
import subprocess
import sys
import tempfile

sys.path.append(os.path.dirname(os.path.dirname(os.path.abspath(__file__))))
from running import Count, asked

SECONDS = 60


def broken_socket(content):
    """A socket that gives these bytes, after which a read fails: it is closed on the other side with a byte unread."""
    ours, theirs = socket.socketpair()
    for side, option in ((ours, socket.SO_SNDBUF), (theirs, socket.SO_RCVBUF)):
        side.setsockopt(socket.SOL_SOCKET, option, 1 << 21)
    theirs.send(b'x')
    ours.setblocking(False)
    ours.sendall(content)
    ours.close()
    return theirs


def place(path, content, ending):
    """A file with this content; a folder, whose reads fail, in place of an empty one."""
    if ending == 'Read':
        os.mkdir(path)
        return
    with open(path, 'wb') as out:
        out.write(content)


def difference(wanted, found):
    """What differs of status, text and standard error, in a line, or None."""
    if wanted == found:
        return None
    if wanted[0] != found[0]:
        return f'status {found[0]} in place of {wanted[0]}; standard error {found[2][:200]!r}'
    for ours, theirs in zip(wanted[1].splitlines(), found[1].splitlines()):
        if ours != theirs:
            return f'{theirs[:300]!r} in place of {ours[:300]!r}'
    return f'{len(found[1])} bytes in place of {len(wanted[1])}, standard error {found[2][:200]!r} in place of {wanted[2][:200]!r}'


def answer(program, words, source, folder):
    """Status, standard output and standard error of the built program."""
    with source:
        try:
            run = subprocess.run([program, *words], cwd=folder, stdin=source, capture_output=True, timeout=SECONDS)
        except subprocess.TimeoutExpired:
            return 'none in time', b'', b''
    return run.returncode, run.stdout, run.stderr


def compare(given, number):
    """What the case with this number shows, and what differs."""
    kind = sys.modules['__main__']
    case = kind.case(given.seed, number)
    wanted, folder = kind.plain(case), tempfile.mkdtemp()
    try:
        text = difference(wanted, kind.written(case, folder, answer(given.program, *kind.words(case, folder), folder)))
        if text and given.keep:
            shutil.copytree(folder, os.path.join(given.keep, str(number)), dirs_exist_ok=True)
    finally:
        shutil.rmtree(folder)
    return number, kind.met(case, *wanted), text


def follow(about, cases, wanted, more=lambda given, pool: ()):
    """Compares as many cases as are asked for, and counts: each case, each name of `wanted`, which some case has to show, and the lists of
    problems that `more` makes. The script says how a case is made (`case`), answered by the second program (`plain`), given to the built one
    (`words`), what that has `written`, and what was `met`."""
    given = asked(about, 'program', cases=cases, seed='1', only=int, keep=str, jobs=2)
    count, shown = Count(), collections.Counter()
    with multiprocessing.Pool(given.jobs) as pool:
        numbers = range(given.cases) if given.only is None else [given.only]
        for number, things, text in pool.imap_unordered(functools.partial(compare, given), numbers, chunksize=8):
            shown.update(things)
            count.check(f'seed {given.seed}, case {number}', [text] if text else [])
        if given.only is None:
            for name in wanted:
                count.check('not met in any case', [] if shown[name] else [name])
            rarest = ', '.join(f'{name} ({shown[name]})' for name in sorted(wanted, key=lambda name: shown[name])[:4])
            print(f'{given.cases} cases, {sum(shown[name] > 0 for name in wanted)} of {len(wanted)} kinds met; rarest: {rarest}')
            for problems in more(given, pool):
                count.check('sealed statements', problems[:5])
    count.end()
