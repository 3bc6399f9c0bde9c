"""What the checks share: the words of their call, files, counts, and runs of a program with a time limit, which measure what it used.

The last line of each check is `N passed, M failed`; its exit status is 0 only if M is 0 and N is not.
"""
import argparse
import dataclasses
import itertools
import os
import signal
import subprocess
import sys
import tempfile
import threading
import time

CHECKS = os.path.dirname(os.path.abspath(__file__))
TOP = os.path.dirname(CHECKS)
sys.path.append(os.path.join(CHECKS, 'plain'))

# A small process between ours and the program: the peak memory of a new process starts at that of its parent.
STARTER = '''
import os, sys, time
told = int(sys.argv[1])
os.set_inheritable(told, False)
began = time.perf_counter()
child = os.posix_spawn(sys.argv[2], sys.argv[2:], os.environ, setsigdef=[13, 25])
_, status, used = os.wait4(child, 0)
seconds = time.perf_counter() - began
os.write(told, f'{status} {seconds} {used.ru_maxrss} {used.ru_utime + used.ru_stime}'.encode())
'''


@dataclasses.dataclass
class Answer:
    """How a run ended: its status (below zero: the signal that ended it), what it wrote, and what it used.

    The megabytes are the peak; they are known only without `prepare`, and are at least those of the process that
    started it, about 9. `processor` is the CPU time in seconds.
    """
    status: int
    output: bytes
    error: bytes
    seconds: float
    megabytes: float
    processor: float
    late: bool

    def ending(self):
        return 'no end in time' if self.late else f'status {self.status}'


class Run:
    """A running program. Standard input is the file `given`, or a pipe that `feed` writes to, or empty.

    `out` and `err` are files in place of the ones whose content the answer has; `prepare` is called in the new process.
    """

    def __init__(self, words, folder=None, given=None, feed=None, out=None, err=None, prepare=None):
        self.kept = [tempfile.TemporaryFile() if file is None else None for file in (out, err)]
        self.told = None
        source, ours = subprocess.DEVNULL if given is None else given, None
        if feed is not None:
            source, ours = os.pipe()
        passed = ()
        if prepare is None:
            self.told, telling = os.pipe()
            passed = (telling,)
            words = [sys.executable, '-I', '-S', '-c', STARTER, str(telling), *words]
        self.began = time.perf_counter()
        self.process = subprocess.Popen(words, cwd=folder, stdin=source, stdout=self.kept[0] or out, stderr=self.kept[1] or err,
                                        preexec_fn=prepare, pass_fds=passed, start_new_session=True)
        for pipe in passed:
            os.close(pipe)
        if feed is not None:
            os.close(source)
            threading.Thread(target=write_to, args=(ours, feed), daemon=True).start()

    def stop(self):
        os.killpg(self.process.pid, signal.SIGKILL)

    def end(self, seconds=60):
        """The answer of the program; it is killed if it does not end within this many seconds."""
        late = []
        timer = threading.Timer(seconds, lambda: (late.append(True), self.stop()))
        timer.start()
        _, status, used = os.wait4(self.process.pid, 0)
        took, kilobytes, processor = time.perf_counter() - self.began, 0, used.ru_utime + used.ru_stime
        timer.cancel()
        if self.told is not None:
            words = os.read(self.told, 100).split()
            os.close(self.told)
            if len(words) == 4:
                status, took, kilobytes, processor = int(words[0]), float(words[1]), int(words[2]), float(words[3])
        self.process.returncode = os.waitstatus_to_exitcode(status)
        return Answer(self.process.returncode, *map(taken, self.kept), took, kilobytes / 1024, processor, bool(late))


def taken(file):
    """The bytes of a file that a program wrote; closes it."""
    if file is None:
        return b''
    with file:
        file.seek(0)
        return file.read()


def run(words, seconds=60, **given):
    return Run(words, **given).end(seconds)


def write_to(pipe, feed):
    """Feeds a pipe and closes it; a reader that is gone is no error."""
    try:
        feed(pipe)
    except BrokenPipeError:
        pass
    finally:
        os.close(pipe)


def content(*path):
    """The bytes of a file, by its whole path or that in the repository."""
    with open(os.path.join(TOP, *map(os.fsdecode, path)), 'rb') as file:
        return file.read()


def text_of(*path):
    return content(*path).decode()


def put(path, text):
    """Writes a file of these bytes, or of this text, and returns its path."""
    with open(path, 'wb') as out:
        out.write(text if isinstance(text, bytes) else text.encode())
    return path


def asked(about, *programs, **options):
    """The words of a check's call: programs, as whole paths (`?` at the end: it may be left out), and options by their standard values;
    False stands for one without a value, a type for one that is None if it is left out."""
    parser = argparse.ArgumentParser(description=about, formatter_class=argparse.RawDescriptionHelpFormatter)
    for name, standard in options.items():
        kind = {'type': standard} if isinstance(standard, type) else {'type': type(standard), 'default': standard}
        parser.add_argument('--' + name, **({'action': 'store_true'} if standard is False else kind))
    for name in programs:
        parser.add_argument(name.rstrip('?'), type=os.path.abspath, nargs='?' if name.endswith('?') else None)
    return parser.parse_args()


def built(crate):
    """The path of a crate's program, or of its tests, as checks/built finds or builds it."""
    return subprocess.run([os.path.join(CHECKS, 'built'), crate], stdout=subprocess.PIPE, check=True, text=True).stdout.strip()


def report(blocks, message='R1', file=1, files=1, days=('2024-01-01', '2024-01-31'), stated='0\t0', names=None):
    """The bytes of a file with these blocks, each its ISRC, its parties and shares as cells, or none, and its usages with their amounts."""
    lines = ['\t'.join(['HEAD', message, str(file), str(files), *days]), f'SY01\tS1\tGB\tStream\tGBP\t{stated}']
    for name, (isrc, owned, usages) in zip(names or itertools.count(1), blocks):
        lines.append(f'AS01\t{name}\t{isrc}\tSong')
        lines += [f'MW01\t{name}\tW1\tSong\t{owned}'] if owned else []
        lines += [f'SU01\t{name}\tS1\t{number}\t{amount}' for number, amount in usages]
    return '\n'.join([*lines, f'FOOT\t{len(lines) + 1}\t1\t{len(blocks)}', '']).encode()


class Count:
    """Counts checks, prints those that fail or are skipped, and ends the program."""

    def __init__(self):
        self.passed = 0
        self.failed = 0

    def check(self, name, problems):
        """One check, with what is wrong with it."""
        problems = list(problems)
        self.passed += not problems
        self.failed += bool(problems)
        for text in problems:
            print(f'{name}: {text}', flush=True)

    def equal(self, name, wanted, found):
        self.check(name, [] if wanted == found else [f'{found!r} instead of {wanted!r}'])

    def skip(self, name, why):
        print(f'skipped: {name}: {why}', flush=True)

    def end(self):
        print(f'{self.passed} passed, {self.failed} failed')
        raise SystemExit(0 if self.passed and not self.failed else 1)
