"""Runs a case: a server, perhaps the proxy, a client, and the checks."""
import collections
import re
import shutil
import time
from dataclasses import dataclass, field

from common.folders import LOGS
from common.processes import Failure, Process, free_port
from peers import checks
from peers.drivers import CADDY, NGTCP2, THESE

FRAME = re.compile(r'(\w+): (\d+)')
FAULTS = {'loss': 'lost', 'reorder': 'reordered', 'repeat': 'repeated', 'damage': 'damaged'}
CASE_SECONDS = 60


@dataclass(frozen=True)
class Case:
    """One meeting of two endpoints, of which `these` is the layer under test."""
    name: str
    server: str
    client: str
    protocol: str = 'h3'
    paths: tuple = ()
    server_options: dict = field(default_factory=dict)
    client_options: dict = field(default_factory=dict)
    faults: dict = field(default_factory=dict)
    restarts: bool = False  # the server is started anew before the client resumes
    checks: tuple = ()
    cause: str = ''  # why it is known to fail

    @property
    def peer(self):
        return self.client if self.server == THESE else self.server


@dataclass
class Outcome:
    """What the processes of a case left."""
    case: Case
    folder: object
    hashes: dict

    def output(self, pattern):
        paths = sorted(self.folder.glob(pattern))
        return [line for path in paths for line in path.read_text(encoding='utf-8', errors='replace').splitlines()]

    def client_lines(self):
        return self.output('client*.out')

    def server_lines(self):
        return self.output('server*.out')

    def proxy_line(self):
        return (self.output('proxy.out') or [''])[-1]

    def these_lines(self):
        return self.server_lines() if self.case.server == THESE else self.client_lines()

    def files(self):
        """Path, status, length and hash of each file that a client told."""
        rows = [line.split() for line in self.client_lines() if line.startswith('file ')]
        return [tuple(row[1:5]) for row in rows]

    def answers(self):
        """What the server answered to uploads."""
        if self.case.client == NGTCP2:
            return [path.read_text(encoding='ascii') for path in sorted(self.folder.glob('downloads-*/*'))]
        return [line.split(' ', 2)[2] for line in self.client_lines() if line.startswith('answer ')]

    def thens(self):
        options = self.case.client_options
        return [name for name in ('then', 'idle') if name in options]

    def frames(self, direction):
        """The frames that the layer under test sent or received, by kind."""
        counts = collections.Counter()
        for line in self.these_lines():
            if line.startswith(f'{direction} '):
                counts.update({kind: int(count) for kind, count in FRAME.findall(line)})
        return counts

    def failure(self):
        """Why the case failed, or None."""
        for line in self.these_lines():
            if line.startswith('closed error'):
                return line
        for check in (*self.standard_checks(), *self.case.checks):
            reason = check(self)
            if reason:
                return reason
        return None

    def standard_checks(self):
        case = self.case
        given = [checks.had(FAULTS[name]) for name in case.faults]
        if case.protocol == 'echo' or 'post' in case.client_options:
            return given
        return [checks.downloads_right if case.client == NGTCP2 else checks.files_received, *given]


def run(case, drivers, hashes, layer):
    """Runs a case: why it failed, or None, and the outcome with its logs."""
    folder = LOGS / layer / case.name.replace('/', '.')
    shutil.rmtree(folder, ignore_errors=True)
    folder.mkdir(parents=True)
    outcome = Outcome(case, folder, hashes)
    try:
        play(case, drivers, folder)
    except Failure as failure:
        return str(failure), outcome
    return outcome.failure(), outcome


def play(case, drivers, folder):
    """Starts the processes, and waits for the client."""
    port = free_port()
    running = [start_server(case, drivers, port, folder)]
    try:
        target = port
        if case.faults:
            proxy, target = start_proxy(case, drivers, port, folder)
            running.append(proxy)
        rounds = 2 if case.client == NGTCP2 and 'resume' in case.client_options else 1
        for number in range(rounds):
            if number and case.restarts:
                restart(case, drivers, port, folder, running)
            client = drivers[case.client].client(case, target, folder, number)
            running.append(client)
            follow(case, client, lambda: restart(case, drivers, port, folder, running))
        # the server may still read the last packets, and tell how the connection ended
        time.sleep(0.1)
    finally:
        for process in reversed(running):
            process.stop()


def follow(case, client, restart_server):
    """Waits for the end of a client. Before it resumes, the server may be started anew."""
    deadline = time.monotonic() + CASE_SECONDS
    if 'resume' in case.client_options and case.client != NGTCP2:
        client.line('resume', CASE_SECONDS)
        if case.restarts:
            restart_server()
        client.say('')
    if client.ended(max(1, deadline - time.monotonic())) != 0:
        lines = [line for line in client.lines() if line.startswith('failed')] or ['the client failed']
        raise Failure(lines[0])


def start_server(case, drivers, port, folder):
    server = drivers[case.server].server(case, port, folder)
    server.bound(port, 20 if case.server == CADDY else 10)
    return server


def restart(case, drivers, port, folder, running):
    """Ends the server and starts another one at the same port, with other keys for tickets."""
    running[0].stop()
    for suffix in ('out', 'err'):
        (folder / f'server.{suffix}').rename(folder / f'server-first.{suffix}')
    running[0] = start_server(case, drivers, port, folder)


def start_proxy(case, drivers, port, folder):
    rates = [word for name, percent in case.faults.items() for word in (f'--{name}', percent)]
    words = [drivers['proxy'], '--target', port, '--seed', len(case.name), '--seconds', 2 * CASE_SECONDS, *rates]
    proxy = Process('proxy', words, folder)
    return proxy, int(proxy.line('ready ', 10))
