#!/usr/bin/env python3
"""Times commands on the same files, in turn.

  measure.py [--repeats N] COMMAND [COMMAND ...] -- FILE [FILE ...]

A command is one argument, quoted if it has several words; '{}' in it is replaced by the files. A command without
'{}' gets the first file on standard input. Standard output is discarded. Each command runs once for its peak memory;
then all run in turn, N times (5). The last column is the least seconds divided by those of the last command.
"""
import os
import shlex
import shutil
import statistics
import sys
import tempfile
import time


def peak(words, given):
    """The peak megabytes of one run. Without the command `time` it is at least that of this process."""
    timer = shutil.which('time')
    if timer is None:
        return run(words, given)[1] / 1024
    with tempfile.NamedTemporaryFile('r') as said:
        run([timer, '-q', '-f', '%M', '-o', said.name] + words, given)
        return int(said.read().split()[-1]) / 1024


def run(words, given):
    """Seconds and peak kilobytes of one run."""
    source = os.open(given or os.devnull, os.O_RDONLY)
    sink = os.open(os.devnull, os.O_WRONLY)
    began = time.perf_counter()
    child = os.posix_spawnp(words[0], words, os.environ,
                           file_actions=[(os.POSIX_SPAWN_DUP2, source, 0), (os.POSIX_SPAWN_DUP2, sink, 1)])
    _, _, used = os.wait4(child, 0)
    seconds = time.perf_counter() - began
    os.close(source)
    os.close(sink)
    return seconds, used.ru_maxrss


def main():
    words = sys.argv[1:]
    repeats = 5
    if words[:1] == ['--repeats']:
        repeats, words = int(words[1]), words[2:]
    if '--' not in words or words.index('--') in (0, len(words) - 1):
        sys.exit(__doc__)
    at = words.index('--')
    files = words[at + 1:]
    megabytes = sum(os.path.getsize(file) for file in files) / 1e6
    commands = []
    for text in words[:at]:
        parts = shlex.split(text)
        takes = '{}' in parts
        spread = [word for part in parts for word in (files if part == '{}' else [part])]
        spread[0] = os.path.abspath(spread[0]) if os.path.exists(spread[0]) else spread[0]
        commands.append((text, spread, None if takes else files[0]))
    memory = [peak(spread, given) for _, spread, given in commands]
    seconds = [[] for _ in commands]
    for _ in range(repeats):
        for kept, (_, spread, given) in zip(seconds, commands):
            kept.append(run(spread, given)[0])
    last = min(seconds[-1])
    print(f'{"median s":>9} {"least s":>9} {"MB/s":>7} {"peak MB":>8} {"by last":>8}  command   ({megabytes:.1f} MB)')
    for kept, most, (text, _, _) in zip(seconds, memory, commands):
        print(f'{statistics.median(kept):9.3f} {min(kept):9.3f} {megabytes / min(kept):7.1f} {most:8.1f} '
              f'{min(kept) / last:8.2f}  {text}')


if __name__ == '__main__':
    main()
