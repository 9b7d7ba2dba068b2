"""A file over QUIC, both ways, by every pair of the two layers, without loss and through a network that loses."""
import hashlib
import os
import re
import statistics
import subprocess

from common import building
from quinn import layout

ROUNDS = 5
LENGTH = 100_000_000
ONE_IN = 100
PORT, LOSSY_PORT = 45_433, 45_434
TOLD = re.compile(r'seconds ([\d.]+) processor ([\d.]+)')
PAIRS = [(client, server) for client in (layout.STOCK, layout.OURS) for server in (layout.STOCK, layout.OURS)]


def hash_of(path):
    return hashlib.sha256(path.read_bytes()).hexdigest()


def started(*words):
    """A process that says when it is ready."""
    process = subprocess.Popen([str(word) for word in words], stdin=subprocess.PIPE, stdout=subprocess.PIPE, text=True)
    if not process.stdout.readline().startswith('ready'):
        raise SystemExit(f'{words} did not start')
    return process


def ended(process):
    """The seconds and the processor time that a process told."""
    text = process.communicate(timeout=900)[0]
    if process.returncode != 0:
        raise SystemExit(f'{process.args} failed')
    return tuple(map(float, TOLD.search(text).groups()))


def transfer(programs, client, server, one_in):
    """One transfer both ways: the seconds, and the processor time of the client and of the server."""
    here, keys = layout.BUILD, layout.BUILD / 'rcgen'
    up, down, got_up, got_down = (here / name for name in ('up', 'down', 'got-up', 'got-down'))
    for path in (got_up, got_down):
        path.unlink(missing_ok=True)
    running = [started(programs[server], 'serve', PORT, keys / 'cert.der', keys / 'key.der', down, got_up)]
    port = LOSSY_PORT if one_in else PORT
    try:
        if one_in:
            running.append(started(programs['proxy'], '--listen', LOSSY_PORT, '--target', PORT, '--loss', 100 / one_in))
        running.append(subprocess.Popen([programs[client], 'fetch', str(port), keys / 'cert.der', up, got_down],
                                        stdout=subprocess.PIPE, text=True))
        (seconds, of_client), (_, of_server) = ended(running[-1]), ended(running[0])
    finally:
        for process in running:
            process.kill()
            process.wait()
    if hash_of(up) != hash_of(got_up) or hash_of(down) != hash_of(got_down):
        raise SystemExit(f'{client} to {server}: what came is not what was sent')
    return seconds, of_client, of_server


def row(taken, first):
    """The medians of some transfers, and their ratios to those of the first pair."""
    seconds, client, server = (statistics.median(column) for column in zip(*taken))
    total = statistics.median(client + server for _, client, server in taken)
    first = first or (seconds, total)
    text = f'{seconds:7.3f} s {seconds / first[0]:5.2f}   processor {client:.3f} + {server:.3f} = {total:.3f} s {total / first[1]:5.3f}'
    return text, first


def run(words):
    rounds = int(words[0]) if words else ROUNDS
    layout.install()
    programs = {which: layout.program(which, layout.HERE / 'transfer', 'transfer') for which in (layout.STOCK, layout.OURS)}
    programs['proxy'] = building.proxy()
    for name in ('up', 'down'):
        (layout.BUILD / name).write_bytes(os.urandom(LENGTH))
    print(f'{LENGTH:,} bytes up, then down; medians of {rounds}, and their ratios to stock and stock', flush=True)
    for one_in in (0, ONE_IN):
        taken = {pair: [] for pair in PAIRS}
        for _ in range(rounds):
            for pair in PAIRS:
                taken[pair].append(transfer(programs, *pair, one_in))
        print(f'one datagram of {one_in} lost' if one_in else 'no loss drawn', flush=True)
        first = None
        for client, server in PAIRS:
            text, first = row(taken[client, server], first)
            print(f'  client {client:5} server {server:5} {text}', flush=True)
    print('every hash is equal')
    return 0
