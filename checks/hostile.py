"""A hostile surrounding for a program: names, outputs, closed descriptors and limits. checks/outside and checks/output have it for
dsr, checks/totals_outside for dsr_totals."""
import os
import random
import resource
import shutil
import signal
import stat
import subprocess
import tempfile
import time

from running import Count, Run, put, run

NOBODY = 54_321
OLD = b'what was there before\n'
NAMES = ('a name with spaces.tsv', 'a\tTAB.tsv', 'caf\u00e9 \u65e5\u672c.tsv', 'a\nline feed.tsv', "'quoted'.tsv", '*.tsv')


class Outside:
    """A program, a folder for its files, and the count. `name` begins its lines on standard error; it prints `printed` of `content`,
    which is in small.tsv, and `whole`, which is long, of large.tsv."""

    seconds = 20
    megabytes = 64
    noisy = ()  # words with which something is written to standard error

    def __init__(self, program, folder, name, small, large):
        self.folder = folder
        self.name = name.encode()
        self.count = Count()
        self.program = os.path.join(folder, 'program')
        shutil.copy(program, self.program)
        os.chmod(self.program, 0o755)
        os.chmod(folder, 0o755)
        self.content, self.printed = small
        _, self.whole = large
        self.write('small.tsv', self.content)
        self.write('large.tsv', large[0])

    def write(self, name, text):
        put(self.path(name), text)
        return name

    def read(self, name):
        """The bytes of a file; None if it is not there."""
        try:
            with open(self.path(name), 'rb') as file:
                return file.read()
        except FileNotFoundError:
            return None

    def path(self, name):
        return os.path.join(self.folder, name)

    def parts(self):
        """The new files of --output that are left, which are removed."""
        found = [os.path.join(at, name) for at, _, names in os.walk(self.folder) for name in names if name.endswith('.part')]
        for path in found:
            os.remove(path)
        return found

    def run(self, *words, **given):
        return run([self.program, *words], self.seconds, folder=self.folder, **given)

    def line(self, text):
        """A line of the program on standard error."""
        return b'%s: %s\n' % (self.name, text if isinstance(text, bytes) else text.encode())

    def wants(self, name, answer, status, output=b'', error=b'', megabytes=None):
        """Checks an answer: its status, its output, its lines of error (None: any), and its memory."""
        problems, megabytes = [], megabytes or self.megabytes
        if answer.late or answer.status != status:
            problems.append(f'{answer.ending()} instead of status {status}, standard error {answer.error[:200]!r}')
        if answer.output != output:
            problems.append(f'output {answer.output[:200]!r} instead of {output[:200]!r}')
        if answer.error != error if error is not None else not answer.error:
            problems.append(f'standard error {answer.error[:200]!r} instead of {(error or b"any")[:200]!r}')
        if answer.megabytes > megabytes:
            problems.append(f'{answer.megabytes:.0f} MB, more than {megabytes}')
        self.count.check(name, problems)

    def refuses(self, name, answer, status, text):
        """Checks that nothing is printed but this line on standard error."""
        self.wants(name, answer, status, b'', self.line(text))

    def writes(self, name, answer, status, files, error=b''):
        """Checks an answer with --output: nothing is printed, these files hold these texts then, and no new file is left."""
        self.wants(name, answer, status, b'', error)
        held = [f'{path} is left' for path in self.parts()]
        held += [f'{file} holds {str(self.read(file))[:100]} instead of {str(text)[:100]}' for file, text in files.items() if self.read(file) != text]
        self.count.check(f'{name}: the files', held)

    def prints(self, name, answer):
        """Checks that it prints what it prints of small.tsv."""
        self.wants(name, answer, 0, self.printed)


def names(o):
    for name in ('none.tsv', '', 'small.tsv/x', 'n' * 5000):
        for words in ([name], ['small.tsv', name]):
            o.refuses(f'a name that is not there: {name[:20]!r}, {len(words)} given', o.run(*words), 2, 'cannot open ' + (name or "''"))
    for name in NAMES:
        o.prints(f'the name {name!r}', o.run(o.write(name, o.content)))
    o.write('-dash.tsv', o.content)
    o.prints('a name that begins with a hyphen', o.run('--', '-dash.tsv'))
    o.refuses('a name that is not UTF-8', o.run(b'\xff.tsv'), 2, 'an argument is not UTF-8')
    o.prints('standard input', o.run(feed=lambda pipe: os.write(pipe, o.content)))
    o.prints('standard input by its name', o.run('/dev/stdin', feed=lambda pipe: os.write(pipe, o.content)))
    o.prints('the name ./-', o.run('./' + o.write('-', o.content)))
    o.write('-', b'another file')
    for words in (['-'], ['--', '-']):
        o.prints(f'standard input by the name - of {len(words)} words', o.run(*words, feed=lambda pipe: os.write(pipe, o.content)))
    o.refuses('the name - twice', o.run('-', 'small.tsv', '-', feed=lambda pipe: os.write(pipe, o.content)), 2, 'standard input is named twice')


def permission(o):
    o.write('closed.tsv', o.content)
    os.chmod(o.path('closed.tsv'), 0)
    if prepare := without_privileges(o, 'no permission'):
        o.refuses('no permission', o.run('closed.tsv', prepare=prepare), 2, 'cannot open closed.tsv')


def without_privileges(o, name):
    """What a process does so that permissions hold for it; None, and the check is skipped, if the program cannot be run then."""
    if os.geteuid() == 0 and o.run('small.tsv', prepare=drop_privileges).status != 0:
        o.count.skip(name, 'as root, and no other user can run the program here')
        return None
    return drop_privileges if os.geteuid() == 0 else lambda: None


def drop_privileges():
    os.setgroups([])
    os.setgid(NOBODY)
    os.setuid(NOBODY)


def limit_files(most):
    """No file may have more bytes than this."""
    signal.signal(signal.SIGXFSZ, signal.SIG_IGN)
    resource.setrlimit(resource.RLIMIT_FSIZE, (most, most))


def outputs(o):
    if os.path.exists('/dev/full'):
        with open('/dev/full', 'wb') as full:
            o.refuses('standard output is full', o.run('small.tsv', out=full), 3, 'write failed after 0 bytes')
            o.wants('standard error is full', o.run('none.tsv', err=full), 2)
    else:
        o.count.skip('standard output is full', 'there is no /dev/full')
    reading, writing = os.pipe()
    os.close(reading)
    o.refuses('standard output is a closed pipe', o.run('small.tsv', out=writing), 3, 'write failed after 0 bytes')
    os.close(writing)
    o.count.check('standard output is a pipe that closes', closing_pipe(o))
    with open(o.path('limited'), 'wb') as limited:
        answer = o.run('large.tsv', out=limited, prepare=lambda: limit_files(1000))
    o.refuses('a file that may have 1,000 bytes', answer, 3, 'write failed after 1000 bytes')
    o.count.check('what a limited file has', [] if o.read('limited') == o.whole[:1000] else ['not the first 1,000 bytes'])


def closing_pipe(o):
    """The reported number of bytes is between what was read from the pipe and the length of the whole output."""
    reading, writing = os.pipe()
    begun = Run([o.program, 'large.tsv'], folder=o.folder, out=writing)
    os.close(writing)
    taken = b''
    while len(taken) < 5000 and (piece := os.read(reading, 5000 - len(taken))):
        taken += piece
    os.close(reading)
    answer = begun.end(o.seconds)
    words = answer.error.split()
    if answer.status != 3 or words[:4] != o.line('write failed after').split() or len(words) != 6:
        yield f'{answer.ending()}, standard error {answer.error!r}'
    elif not 5000 <= int(words[4]) <= len(o.whole):
        yield f'{int(words[4])} bytes reported, 5,000 read of {len(o.whole)}'
    if taken != o.whole[:5000]:
        yield 'the bytes read are not the first of the output'


def links(o):
    """--output by a link. One to an ordinary file is followed: what it leads to is replaced, and the link stays. Any other is refused,
    and nothing is changed."""
    os.mkdir(o.path('links'))
    os.mkdir(o.path('links/aside'))
    os.mkfifo(o.path('links/fifo'))
    texts = {'plain': 'held', 'absolute': o.path('links/held'), 'down': 'aside/other', 'aside/up': '../held', 'first': 'aside/second',
             'aside/second': '../plain', 'folder': 'aside', 'nothing': 'none', 'further': 'nothing', 'round': 'round', 'device': '/dev/null', 'to_fifo': 'fifo',
             'descriptor': '/proc/self/fd/1', 'to_descriptor': 'aside/descriptor', 'aside/descriptor': '../descriptor', 'read': '../small.tsv'}
    for name, text in texts.items():
        os.symlink(text, o.path('links/' + name))

    def answers(name, status, error, files):
        before, at = there(o.path('links')), f'links/{name}'
        with open(o.path('said'), 'wb') as out:
            answer = o.run('--output', at, 'small.tsv', out=out)
        o.writes(f'--output is a link: {name}', answer, status, {'said': b'', **files}, error and o.line(error.replace('NAME', at)))
        changed = before ^ there(o.path('links'))
        o.count.check(f'links stay: {name}', [sorted(changed)] if changed else [])
    for name, file in (('plain', 'held'), ('absolute', 'held'), ('down', 'aside/other'), ('aside/up', 'held'), ('folder/up', 'held'),
                       ('folder/../plain', 'held'), ('first', 'held')):
        o.write('links/' + file, OLD)
        answers(name, 0, b'', {'links/' + file: o.printed})
    for name in ('nothing', 'further', 'round', 'folder', 'device', 'to_fifo', 'descriptor', 'to_descriptor', 'plain/', 'folder/', 'nothing/'):
        answers(name, 2, 'cannot create NAME', {'links/held': o.printed, 'links/none': None})
    answers('read', 2, 'cannot write to NAME, which is read', {'small.tsv': o.content})
    links_and_permission(o)


def killed(o):
    """Killed 200 times at random moments: FILE holds what was there, or the whole text; both have to be seen."""
    seed = random.randrange(2 ** 32)
    draw = random.Random(seed)
    took = max(o.run('--output', 'kill', 'large.tsv').seconds for _ in range(3))
    seen, left, problems = {OLD: 0, o.whole: 0}, 0, []
    for _ in range(200):
        o.write('kill', OLD)
        process = subprocess.Popen([o.program, '--output', 'kill', 'large.tsv'], cwd=o.folder, stdout=subprocess.PIPE)
        time.sleep(draw.uniform(0, took * 1.3))
        process.kill()
        output, _ = process.communicate()
        held = o.read('kill')
        left += len(o.parts())
        seen[held] = seen.get(held, 0) + 1
        if len(seen) > 2 or output:
            problems.append(f'seed {seed}: {len(held or b"")} bytes, standard output {output[:100]!r}')
    told = f'{seen[OLD]} kills before the end, {seen[o.whole]} after it, {left} new files left'
    print(told)
    o.count.check('killed at random moments', problems)
    o.count.check('the kills came before and after the end', [] if all(seen.values()) and left else [told])


def there(folder):
    """The names below a folder, each with what it names if it is a link."""
    paths = [os.path.join(at, name) for at, folders, files in os.walk(folder) for name in (*folders, *files)]
    return {(path, os.readlink(path) if os.path.islink(path) else '') for path in paths}


def links_and_permission(o):
    """The new file is made in the folder of what the link leads to: the link's own may be closed."""
    os.mkdir(o.path('links/ours'), 0o777)
    os.chmod(o.path('links/ours'), 0o777)
    os.mkdir(o.path('links/theirs'))
    for folder, other in ('ours', 'theirs'), ('theirs', 'ours'):
        o.write(f'links/{folder}/held', OLD)
        os.symlink(f'../{other}/held', o.path(f'links/{folder}/link'))
    os.chmod(o.path('links/theirs'), 0o555)
    prepare = without_privileges(o, 'links and permission')
    if not prepare:
        return
    answer = o.run('--output', 'links/ours/link', 'small.tsv', prepare=prepare)
    o.writes('a link to a file in a closed folder', answer, 2, {'links/theirs/held': OLD}, o.line('cannot create links/ours/link'))
    o.writes('a link in a closed folder', o.run('--output', 'links/theirs/link', 'small.tsv', prepare=prepare), 0, {'links/ours/held': o.printed})
    stay = all(os.path.islink(o.path(f'links/{folder}/link')) for folder in ('ours', 'theirs'))
    o.count.check('the links stay', [] if stay else ['one is gone'])


def closed(o):
    """Standard input, output and error closed at the start: an opened file may then get their numbers."""
    o.prints('standard input closed, a file named', o.run('small.tsv', prepare=lambda: os.close(0)))
    answer = o.run(prepare=lambda: os.close(0))
    o.count.check('standard input closed, none named', [] if answer.status in (1, 3) and not answer.late else [answer.ending()])
    o.wants('standard output closed', o.run('small.tsv', prepare=lambda: os.close(1)), 3, b'', None)
    o.prints('standard error closed', o.run('small.tsv', prepare=lambda: os.close(2)))
    o.wants('standard error closed, a name that is not there', o.run('none.tsv', prepare=lambda: os.close(2)), 2)
    o.count.check('all three closed', [] if o.run('small.tsv', prepare=lambda: os.closerange(0, 3)).status == 3 else ['not status 3'])
    o.count.check('the file is as it was', [] if o.read('small.tsv') == o.content else ['it was written to'])
    for name, numbers in ('input', (0, 1)), ('output', (1, 2)), ('error', (2, 3)), ('all three', (0, 3)):
        o.write('new.tsv', b'')
        o.run(*o.noisy, '--output', 'new.tsv', 'small.tsv', prepare=lambda numbers=numbers: os.closerange(*numbers))
        o.count.check(f'--output with standard {name} closed', [] if o.read('new.tsv') == o.printed else ['it is another text'])


def words(o, option, refused):
    """The help names this option, and these words are refused."""
    answer = o.run('--help')
    o.count.check('help', [] if answer.status == 0 and option in answer.output and not answer.error else [answer.ending()])
    for given in (*refused, ['--colour'], ['-x']):
        o.wants(f'the words {given}', o.run(*given), 2, b'', None)


def memory(o, limits, given, right, refusals):
    """Every limit on memory, in kilobytes: the right answer, or one of these lines and nothing printed; never a crash, never a
    hang. Both have to be seen."""
    problems, ends = [], {}
    for kilobytes in limits:
        def prepare():
            resource.setrlimit(resource.RLIMIT_AS, (kilobytes * 1024, kilobytes * 1024))
        if o.run('--help', prepare=prepare).status != 0:
            continue
        answer = o.run(*given, prepare=prepare)
        told = (answer.status, answer.error)
        ends[told] = ends.get(told, 0) + 1
        if answer.late or (*told[:1], answer.output, told[1]) not in [(*right, b''), *((3, b'', o.line(text)) for text in refusals)]:
            problems.append(f'{kilobytes} kB: {answer.ending()}, {len(answer.output)} bytes of output, standard error {answer.error[:200]!r}')
    print('limits of memory: ' + ', '.join(f'{times} with status {status} {error.decode().strip()!r}' for (status, error), times in ends.items()))
    seen = {status for status, _ in ends} == {right[0], 3}
    o.count.check('limits of memory', problems or ([] if seen else ['no limit was too low, or none high enough']))


def run_parts(outside, *parts):
    """Runs parts of a check in a folder of its own; `outside` makes the surrounding in it."""
    with tempfile.TemporaryDirectory() as folder:
        o = outside(folder)
        for part in parts:
            part(o)
        os.chmod(folder, stat.S_IRWXU)
    o.count.end()
