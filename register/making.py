"""Makes what is not current, by threads of this machine or a job array. A result is a folder with `result.json` and, if there is one, `statement`."""
import concurrent.futures
import contextlib
import errno
import glob
import hashlib
import json
import os
import re
import shutil
import subprocess
import sys
import tempfile
import time

from outside import MAY_PASS, PART, TOP, Entry, Refused, digest_at, digest_of, folders_of, looked_at, note, now, of_what, one_line, opened, program, shown
from table import ARRIVED, CURRENT, asked_for, looked_up, show

MOST_LETTERS = 100
ROUNDS = 3
MOST_FILES = 64
INDEXES = ('SLURM_ARRAY_TASK_ID', 'JOB_COMPLETION_INDEX', 'AWS_BATCH_JOB_ARRAY_INDEX')
TOOLS = {b'.gz': 'gzip', b'.zst': 'zstd', b'.xz': 'xz'}
PASSING = (errno.ENOSPC, errno.EDQUOT, errno.ENOMEM, errno.EMFILE, errno.ENFILE, errno.EAGAIN, errno.ESTALE)


def unpacked(tool, file, room):
    """What a file is unpacked to, to its end, where its checksum stands."""
    out, errors = tempfile.TemporaryFile(dir=room), tempfile.TemporaryFile()
    try:
        process = subprocess.Popen([tool, '-dc'], stdin=file, stdout=subprocess.PIPE, stderr=errors)
    except FileNotFoundError:
        raise Refused(2, f'{tool} is not there') from None
    with process:
        shutil.copyfileobj(process.stdout, out, PART)
    out.flush()
    if process.returncode:
        line = one_line(os.pread(errors.fileno(), 1000, 0)) or f'{tool} ended with {process.returncode}'
        raise Refused(MAY_PASS if process.returncode < 0 else 4, line)
    return out


class Making:
    """One try to make the statement of a folder, in a room of its own."""

    def __init__(self, plan, folder, room):
        self.plan, self.folder, self.room, self.seen = plan, folder, room, time.time_ns()
        self.entries, self.digests, self.files, self.given = looked_at(folder) or [], {}, contextlib.ExitStack(), []

    def take_all(self):
        """Opens and hashes each file; of a packed one dsr is given what it is unpacked to."""
        if not self.entries or len(self.entries) > MOST_FILES:
            os.listdir(self.folder)
            raise Refused(2, f'{len(self.entries)} files, of which dsr reads at most {MOST_FILES}' if self.entries else 'no files')
        for entry in self.entries:
            try:
                if entry.kind:
                    raise Refused(2, f'it is {entry.kind}')
                file, tool = self.files.enter_context(opened(os.path.join(self.folder, entry.name))), TOOLS.get(os.path.splitext(entry.name)[1])
                self.digests[entry] = digest_of(file)
                self.given.append((entry, file, self.files.enter_context(unpacked(tool, file, self.room)) if tool else file))
            except (OSError, Refused) as error:
                status = getattr(error, 'status', MAY_PASS if getattr(error, 'errno', None) in PASSING else 2)
                raise Refused(status, f'{shown(entry.name)}: {getattr(error, "strerror", None) or error}') from None

    def run(self):
        """Runs dsr. Whether the statement has remarks."""
        descriptors, layout = [given.fileno() for *_, given in self.given], self.plan['layout']
        words = [self.plan['dsr'], '--seal', '--output', 'statement', *(['--layout', f'../../../{layout}'] if layout else []),
                 '--', *(f'/dev/fd/{number}' for number in descriptors)]
        try:
            ended = subprocess.run(words, cwd=self.room, stdin=subprocess.DEVNULL, stdout=subprocess.DEVNULL, stderr=subprocess.PIPE,
                                   pass_fds=descriptors, timeout=self.plan['timeout'])
        except subprocess.TimeoutExpired:
            raise Refused(4, f'no end after {self.plan["timeout"]} seconds') from None
        if ended.returncode not in (0, 1):
            raise Refused(2 if ended.returncode == 2 else MAY_PASS, one_line(ended.stderr) or f'dsr ended with {ended.returncode}')
        return ended.returncode == 1

    def told(self, remarks):
        """What the statement says of itself, and for each file the number and the digest of the bytes that were read."""
        with open(os.path.join(self.room, b'statement'), 'rb') as file:
            first, size = [line.decode().split('\t') for line in file.readlines(4096)], os.fstat(file.fileno()).st_size
            if first[0][0] != 'REPORT':
                outcome = next(' '.join(cells[5:]) for cells in first if cells[0] == 'FILE')
                raise Refused(4, f'no file has an opening; the first file: {outcome.strip()}')
            last = [line.split(b'\t') for line in os.pread(file.fileno(), 16384, max(0, size - 16384)).split(b'\n')]
            cells = dict(message=first[0][1], files=int(first[0][2]), first_day=first[0][3], last_day=first[0][4], sha256=digest_of(file))
            return dict(cells, remarks=remarks), [(int(cells[2]), cells[3].decode()) for cells in last if cells[0] == b'INPUT']

    def result(self):
        """The result, and what it is of. It may pass another time if dsr read other bytes than were hashed, or the folder looks otherwise."""
        result, changed = dict(status=0, sealed=True, layout=self.plan['layout']), False
        with self.files:
            try:
                self.take_all()
                cells, read = self.told(self.run())
                for place, (entry, file, given) in enumerate(self.given):
                    size, digest = read[place] if given is file else (entry.size, digest_of(file))
                    changed |= digest != (self.digests[entry] if size == entry.size else digest_of(file, size))
                result.update(cells)
            except (Refused, PermissionError) as failed:
                result.update(status=getattr(failed, 'status', 2), reason=str(failed))
        if changed or (looked_at(self.folder) or []) != self.entries:
            result = dict(status=MAY_PASS, reason='changing: its files changed while they were read')
        return dict(result, **of_what(self.folder, self.entries, self.digests, self.seen))


def kept_in(*path):
    """What a JSON file has, such as the plan of a run or a result; None if there is none."""
    with contextlib.suppress(OSError, ValueError), open(os.path.join(*path), encoding='ascii') as file:
        return json.load(file)


def make_report(run, plan, place):
    """Leaves the result of the report at this place of the plan's list, unless it has one that stays. Its status."""
    left, since = os.path.join(run, b'%d' % place), time.monotonic()
    earlier = kept_in(left, b'result.json')
    if earlier and earlier['status'] != MAY_PASS:
        return earlier['status']
    room = tempfile.mkdtemp(prefix=b'.', dir=run)
    try:
        result = Making(plan, os.path.join(os.fsencode(plan['reports']), os.fsencode(plan['names'][place])), room).result()
        result.update(made=now(), host=os.uname().nodename, seconds=round(time.monotonic() - since, 3))
        with open(os.path.join(room, b'result.json'), 'w', encoding='ascii') as file:
            json.dump(result, file)
        shutil.rmtree(left, ignore_errors=True)
        os.rename(room, left)
    finally:
        shutil.rmtree(room, ignore_errors=True)
    return result['status']


def task(_, asked):
    """A task of a job array: makes every n-th report. Slurm queues it again, up to three times, if a run may pass another time."""
    index, plan, status = next((os.environ[name] for name in INDEXES if name in os.environ), None), kept_in(asked.run, b'plan.json'), 0
    if index is None or plan is None:
        raise Refused(2, f'none of {", ".join(INDEXES)} has the index of the task' if plan else 'the run is not there')
    for place in range(int(index), len(plan['names']), plan['tasks']):
        try:
            status = max(status, MAY_PASS * (make_report(asked.run, plan, place) == MAY_PASS))
        except OSError as error:
            note(error.strerror)
            status = MAY_PASS
    if status and 'SLURM_JOB_ID' in os.environ and int(os.environ.get('SLURM_RESTART_COUNT', 0)) < 3:
        subprocess.run(['scontrol', 'requeue', os.environ['SLURM_JOB_ID']], stdin=subprocess.DEVNULL)
    return status


def on_this_machine(run, plan, jobs):
    """Gives the places of the reports, in the order in which they end, and what failed."""
    executor = concurrent.futures.ThreadPoolExecutor(jobs)
    places = {executor.submit(make_report, run, plan, place): place for place in range(len(plan['names']))}
    try:
        yield from ((places[ended], ended.exception()) for ended in concurrent.futures.as_completed(places))
    finally:
        executor.shutdown(cancel_futures=True)


def slurm(*words):
    return subprocess.run(words, env=dict(os.environ, LC_ALL='C'), stdin=subprocess.DEVNULL, capture_output=True)


def wait_for_slurm(run):
    """Waits until no task of the run's job waits or runs. Whether one did. A controller that does not answer is asked again."""
    there = silent = False
    while (told := slurm('squeue', '--noheader', b'--name=' + os.path.basename(run), '--format=%i')).returncode or told.stdout.strip():
        if told.returncode and not silent:
            note('squeue does not answer; it is asked again until it does')
        there, silent = there or not told.returncode, bool(told.returncode)
        time.sleep(1)
    return there


def on_slurm(run, plan, options):
    """Makes the reports by a job array, and waits for its end. Whether there is a job says squeue, also if sbatch failed."""
    with open(os.path.join(run, b'task'), 'wb') as file:
        file.write(b'#!/bin/sh\nexec "$@"\n')
    told = slurm('sbatch', *options, '--requeue', '--open-mode=append', f'--array=0-{plan["tasks"] - 1}', '--output=output.%a', b'--chdir=' + run,
                 b'--job-name=' + os.path.basename(run), file.name, os.path.join(TOP, 'register', 'dsr_register'), 'task', run)
    if not wait_for_slurm(run) and told.returncode:
        raise Refused(3, f'sbatch: {one_line(told.stderr)}')
    return ((place, None) for place in range(len(plan['names'])))


def take(table, run, name, place):
    """Takes a result in, which is of no use if the folder has changed since. Why the report has to be made again, or None."""
    result, entries, path = kept_in(run, b'%d' % place, b'result.json'), looked_at(os.path.join(table.reports, name)), None
    if entries is None:
        return None
    if not result or entries != [Entry(os.fsencode(file), *looks) for file, *looks, _ in result['read']]:
        return 'changing: its files changed after they were read' if result else 'its worker left no result'
    if result.get('sha256'):
        letters = re.sub(r'\W+', '_', name.decode(errors='replace')).encode()[:MOST_LETTERS].decode(errors='ignore')
        digest = hashlib.sha256(b'\0'.join([name, result['inputs'].encode(), result['sha256'].encode()])).hexdigest()[:32]
        path = f'statements/{letters}.{digest}.tsv'
        kept = os.path.join(table.beside, path.encode())
        if not os.path.exists(kept):
            os.rename(os.path.join(run, b'%d' % place, b'statement'), kept)
        elif digest_at(kept) != result['sha256']:
            path, result = None, dict(result, status=2, sha256=None, reason=f'{path} is there with other bytes')
    table.keep(name, result, entries, path)
    return result['reason'] if result['status'] == MAY_PASS else None


def settle(table, making):
    """Takes in what earlier runs left, once the tasks that a cluster still has of them have ended."""
    for run in glob.glob(os.path.join(glob.escape(making), b'run.*')):
        plan = kept_in(run, b'plan.json')
        if plan and plan['slurm']:
            wait_for_slurm(run)
        for place, name in enumerate(plan['names'] if plan and os.fsencode(plan['reports']) == table.reports else []):
            take(table, run, os.fsencode(name), place)
        shutil.rmtree(run, ignore_errors=True)


def made_once(table, run, plan, names, asked):
    """Makes the reports of a run. Those that have to be made again, with the reason."""
    again = {}
    ended = on_slurm(run, plan, asked.options) if asked.slurm else on_this_machine(run, plan, max(1, asked.jobs))
    with contextlib.closing(ended):
        for count, (place, failed) in enumerate(ended, 1):
            if reason := take(table, run, names[place], place):
                again[names[place]] = str(failed or reason)
            if sys.stderr.isatty():
                print(f'\r{count} of {len(names)} reports', end='\n' if count == len(names) else '', file=sys.stderr, flush=True)
    shutil.rmtree(run, ignore_errors=True)
    return again


def make(table, asked):
    table.reports, dsr, making = os.path.realpath(asked.reports), program('dsr'), os.path.join(table.statements, b'.making.' + table.id.encode())
    os.makedirs(making, exist_ok=True)
    table.lock()
    names, others = folders_of(table.reports)
    layout = asked.layout and digest_at(asked.layout)
    if layout == '':
        raise Refused(3, f'{shown(asked.layout)} is no file that can be read')
    layout = layout and f'layout.{layout}.tsv'
    for name in others:
        note(f'left out, since it is in no folder of a report: {shown(name)}')
    with table.base:
        table.base.execute('update register set reports = ?', (table.reports,))
        table.base.execute('update report set here = 0')
        table.base.executemany(ARRIVED, [(name,) for name in names])
    if layout:
        shutil.copyfile(asked.layout, os.path.join(table.statements, layout.encode()))
    settle(table, making)
    again = {table.called(text): '' for text in asked.only or []} or {
        one.name: '' for one in looked_up(table, keep=True)
        if one.state in ('changed', 'failed') or (one.state != 'withdrawn' and not os.path.exists(table.place_of(one.newest)))}
    most = re.search(rb'MaxArraySize *= (\d+)', slurm('scontrol', 'show', 'config').stdout) if asked.slurm and again else None
    if asked.slurm and again and not most:
        raise Refused(3, 'scontrol does not answer')
    for _ in range(ROUNDS):
        if names := list(again):
            run, tasks = tempfile.mkdtemp(prefix=b'run.', dir=making), asked.prepare or (min(len(names), int(most[1])) if most else 1)
            plan = dict(reports=os.fsdecode(table.reports), names=list(map(os.fsdecode, names)), dsr=dsr, layout=layout,
                        timeout=asked.timeout, tasks=max(1, tasks), slurm=asked.slurm)
            with open(os.path.join(run, b'plan.json'), 'w', encoding='ascii') as file:
                json.dump(plan, file)
            if asked.prepare:
                print(shown(run))
                return 0
            again = made_once(table, run, plan, names, asked)
    for name, reason in again.items():
        entries = looked_at(folder := os.path.join(table.reports, name)) or []
        table.keep(name, dict(of_what(folder, entries, {}, 0), status=MAY_PASS, reason=reason, made=now()), entries)
    return show(table, asked)


def page(table, asked):
    """Prints the page of a current statement. dsr_page is given the files, unpacked, by links that have their names."""
    one = asked_for(table, asked.name, CURRENT)
    if reason := table.spoilt(one.newest):
        raise Refused(1, reason)
    with tempfile.TemporaryDirectory() as room:
        making = Making(None, os.path.join(table.reports, one.name), os.fsencode(room))
        with making.files:
            making.take_all()
            for entry, _, given in making.given:
                os.symlink(b'/dev/fd/%d' % given.fileno(), os.path.join(making.room, entry.name))
            layout = one.newest['layout'] and os.path.join(table.statements, one.newest['layout'].encode())
            words = [program('dsr_page'), *(['--layout', layout] if layout else []), *(['--unsealed'] if not one.newest['sealed'] else []),
                     '--', table.place_of(one.newest), *(entry.name for entry in making.entries)]
            ended = subprocess.run(words, cwd=room, stdin=subprocess.DEVNULL, stderr=subprocess.PIPE, pass_fds=[given.fileno() for *_, given in making.given],
                                   env=dict(os.environ, PATH=os.path.dirname(program('dsr_totals')) + os.pathsep + os.environ.get('PATH', os.defpath)))
    if ended.returncode:
        raise Refused(1, f'{shown(one.name)}: {one_line(ended.stderr) or f"dsr_page ended with {ended.returncode}"}')
