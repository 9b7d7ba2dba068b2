"""The instructions of one endpoint in a transfer of 10 MB over QUIC, as valgrind counts them, on each of the two layers."""
import os
import re
import statistics
import subprocess

from common import packages
from common.processes import free_port
from quinn import layout
from quinn.transferring import ended, hash_of, started

ROUNDS = 3
LENGTH = 10_000_000
COLLECTED = re.compile(r'Collected : (\d+)')
VALGRIND = ['valgrind', '--tool=callgrind', '--callgrind-out-file=/dev/null']


def transferred(programs, client, server, counted, files):
    """Transfers the files, and returns the instructions of the endpoint that is counted."""
    here, keys, port = layout.BUILD, layout.BUILD / 'rcgen', free_port()
    up, down = files
    got_up, got_down = here / 'got-up', here / 'got-down'
    log = here / 'valgrind.log'
    under = [*VALGRIND, f'--log-file={log}']
    serve = [programs[server], 'serve', port, keys / 'cert.der', keys / 'key.der', down, got_up]
    fetch = [str(word) for word in (programs[client], 'fetch', port, keys / 'cert.der', up, got_down)]
    process = started(*(under if counted == 'server' else []), *serve)
    try:
        subprocess.run((under if counted == 'client' else []) + fetch, check=True, timeout=300, stdout=subprocess.DEVNULL)
        ended(process)
    finally:
        process.kill()
        process.wait()
    if hash_of(up) != hash_of(got_up) or hash_of(down) != hash_of(got_down):
        raise SystemExit('what came is not what was sent')
    return int(COLLECTED.search(log.read_text(encoding='utf-8'))[1])


def run(words):
    rounds = int(words[0]) if words else ROUNDS
    layout.install()
    packages.install(['valgrind'])
    layers = (layout.STOCK, layout.OURS)
    programs = {which: layout.program(which, layout.HERE / 'transfer', 'transfer') for which in layers}
    small, large = layout.BUILD / 'small', layout.BUILD / 'large'
    small.write_bytes(b'a')
    large.write_bytes(os.urandom(LENGTH))
    print(f'{LENGTH:,} bytes to the client; millions of instructions, medians of {rounds}', flush=True)
    for name, counted in (('receiver', 'client'), ('sender', 'server')):
        medians = []
        for which in layers:
            pair = (which, layout.STOCK) if counted == 'client' else (layout.STOCK, which)
            counts = [transferred(programs, *pair, counted, (small, large)) for _ in range(rounds)]
            medians.append(statistics.median(counts))
        stock, ours = medians
        print(f'{name:9} stock {stock / 1e6:7.1f}   these {ours / 1e6:7.1f}   ratio {ours / stock:.3f}', flush=True)
    return 0
