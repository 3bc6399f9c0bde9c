"""Services in folders of their own, for checks: a Slurm of one node, and a PostgreSQL. Their processes can be killed."""
import glob
import os
import shutil
import signal
import socket
import subprocess
import threading
import time

SECONDS = 120
CONF = '''ClusterName=check
SlurmctldHost={host}(127.0.0.1)
SlurmUser=root
AuthType=auth/munge
AuthInfo=socket={room}/munge/socket,cred_expire=10
SlurmctldPort={ports[0]}
SlurmdPort={ports[1]}
StateSaveLocation={room}/state
SlurmdSpoolDir={room}/spool
SlurmctldPidFile={room}/slurmctld.pid
SlurmdPidFile={room}/slurmd.pid
SlurmctldLogFile={room}/slurmctld.log
SlurmdLogFile={room}/slurmd.log
ProctrackType=proctrack/linuxproc
TaskPlugin=task/none
JobAcctGatherType=jobacct_gather/none
ReturnToService=2
SlurmdTimeout=10
KillWait=2
MaxArraySize=21
MailProg=/bin/true
SelectType=select/cons_tres
SelectTypeParameters=CR_CPU
NodeName={host} NodeAddr=127.0.0.1 CPUs={processors} State=UNKNOWN
PartitionName=check Nodes=ALL Default=YES State=UP
'''


def found(tool):
    """The path of a tool: Debian keeps those of PostgreSQL's server out of PATH."""
    known = sorted(glob.glob(f'/usr/lib/postgresql/*/bin/{tool}'))
    return shutil.which(tool) or (known[-1] if known else None)


def lacking(*tools):
    """Which of these tools are not installed, as a reason to skip; empty if all are."""
    missing = [tool for tool in tools if not found(tool)]
    return f'{", ".join(missing)} not installed' if missing else ''


class Slurm:
    """munged, slurmctld and slurmd."""

    def __init__(self, room):
        self.room = room
        for name in ('munge', 'state', 'spool'):
            os.makedirs(os.path.join(room, name))
        ports = []
        with socket.socket() as first, socket.socket() as second:
            for taken in (first, second):
                taken.bind(('127.0.0.1', 0))
                ports.append(taken.getsockname()[1])
        self.host = socket.gethostname().split('.')[0]
        with open(os.path.join(room, 'slurm.conf'), 'w', encoding='utf-8') as file:
            file.write(CONF.format(host=self.host, room=room, ports=ports, processors=os.cpu_count()))
        with open(os.open(os.path.join(room, 'key'), os.O_CREAT | os.O_WRONLY, 0o600), 'wb') as file:
            file.write(os.urandom(128))
        self.env = dict(os.environ, SLURM_CONF=file_in(room, 'slurm.conf'))
        named = {'socket': 'munge/socket', 'key-file': 'key', 'pid-file': 'munge.pid', 'log-file': 'munge.log', 'seed-file': 'seed'}
        self.munged = self.start('munged', '--force', '--foreground', *(f'--{name}={file_in(room, path)}' for name, path in named.items()))
        self.controller = self.start('slurmctld', '-D', '-i')
        self.daemon = self.start('slurmd', '-D')
        self.is_ended = threading.Event()
        threading.Thread(target=self.attend, daemon=True).start()

    def start(self, *words):
        return subprocess.Popen(words, env=self.env, stdout=subprocess.DEVNULL, stderr=subprocess.DEVNULL, stdin=subprocess.DEVNULL)

    def told(self, *words):
        return subprocess.run(words, env=self.env, capture_output=True, text=True).stdout

    def comes_to(self, state, seconds=SECONDS):
        """Whether the node comes to a state in this time."""
        until = time.monotonic() + seconds
        while time.monotonic() < until:
            if state in self.told('sinfo', '--noheader', '--format=%T'):
                return True
            time.sleep(0.5)
        return False

    def attend(self):
        """Does what an operator does once a controller that was killed finds tasks that it does not know, which drains their node and
        holds the jobs, or waits for a task whose end it missed: that seems to run for more than a minute, and is queued again."""
        while not self.is_ended.wait(1):
            if 'drain' in self.told('sinfo', '--noheader', '--format=%T'):
                self.set_node('State=RESUME')
            for line in self.told('squeue', '--noheader', '--format=%F %r').split('\n'):
                if 'Held' in line:
                    self.told('scontrol', 'release', line.split()[0])
            for line in self.told('squeue', '--noheader', '--states=RUNNING', '--format=%A %M').splitlines():
                task, used = line.split()
                if not used.startswith('0:'):
                    self.told('scontrol', 'requeue', task)

    def set_node(self, *words):
        """Says what the node's state is, as an operator does."""
        self.told('scontrol', 'update', f'NodeName={self.host}', *words)

    def kill(self, process, *again):
        """Kills a daemon, and starts it again with these words, if there are any."""
        process.kill()
        process.wait()
        return self.start(*again) if again else None

    def end(self):
        self.is_ended.set()
        self.told('scancel', '--signal=KILL', '--full', '--state=RUNNING')
        self.told('scancel', '--state=PENDING')
        for process in (self.daemon, self.controller, self.munged):
            process.terminate()
        for process in (self.daemon, self.controller, self.munged):
            try:
                process.wait(20)
            except subprocess.TimeoutExpired:
                process.kill()
                process.wait()


def file_in(folder, name):
    return os.path.join(folder, name)


class Postgres:
    """A PostgreSQL with a socket in its folder and no port; where this is root, run by another user."""

    def __init__(self, room, synced=False):
        self.folder = os.path.join(room, 'server')
        os.mkdir(self.folder)
        os.chmod(room, 0o755)
        self.prefix = []
        if os.geteuid() == 0:
            user = 'postgres' if subprocess.run(['id', 'postgres'], capture_output=True).returncode == 0 else 'nobody'
            shutil.chown(self.folder, user)
            self.prefix = ['runuser', '-u', user, '--']
        self.data = os.path.join(self.folder, 'data')
        self.options = f'-c listen_addresses= -c unix_socket_directories={self.folder} -c fsync={"on" if synced else "off"}'
        self.env = dict(os.environ, PGHOST=self.folder, PGUSER='clerk', PGDATABASE='postgres')
        self.do('initdb', '--pgdata', self.data, '--auth=trust', '--username=clerk', '--encoding=UTF8', '--locale=C', '--no-sync')
        self.start()

    def do(self, tool, *words):
        subprocess.run([*self.prefix, found(tool), *words], check=True, capture_output=True, timeout=SECONDS, cwd='/', stdin=subprocess.DEVNULL)

    def start(self):
        self.do('pg_ctl', '--pgdata', self.data, '--wait', '--log', os.path.join(self.folder, 'log'), '-o', self.options, 'start')

    def kill(self):
        """Kills the server and each process of its sessions, and starts it again."""
        with open(os.path.join(self.data, 'postmaster.pid'), encoding='ascii') as file:
            first = int(file.readline())
        with open(f'/proc/{first}/task/{first}/children', encoding='ascii') as file:
            children = file.read().split()
        for process in (first, *map(int, children)):
            try:
                os.kill(process, signal.SIGKILL)
            except ProcessLookupError:
                pass
        until = time.monotonic() + SECONDS
        while True:
            try:
                return self.start()
            except subprocess.CalledProcessError:
                if time.monotonic() > until:
                    raise
                time.sleep(0.2)

    def end(self):
        self.do('pg_ctl', '--pgdata', self.data, '--wait', '--mode=immediate', 'stop')

    def rows(self, query):
        run = subprocess.run(['psql', '-X', '-A', '-t', '-F', '\x1f', '-R', '\x1e', '-v', 'ON_ERROR_STOP=1', '-c', query], env=self.env,
                             capture_output=True, timeout=SECONDS, check=True)
        text = run.stdout.decode()
        return [row.split('\x1f') for row in text.removesuffix('\n').split('\x1e')] if text.strip('\n') else []
