"""Runs the chosen cases and prints their table."""
import collections
import fnmatch
import time

from common import building, certificates, packages, site
from common.folders import LOGS
from peers import cases, drivers, running
from quinn import layout

PACKAGES = ['ngtcp2-client', 'ngtcp2-server', 'caddy', 'libnghttp3-dev', *building.GO_PACKAGES]
NAMES = {layout.STOCK: 'stock', layout.OURS: 'these'}


def chosen(patterns):
    found = cases.all_cases()
    if not patterns:
        return found
    return [case for case in found if any(fnmatch.fnmatch(case.name, f'*{pattern}*') for pattern in patterns)]


def prepare(layers):
    """Installs and builds what is needed. The drivers by layer, and the hashes of the site."""
    packages.install(layout.PACKAGES + PACKAGES)
    certificates.make()
    hashes = site.make()
    proxy, quicgo, stock = building.proxy(), building.quicgo(), building.peer(layout.STOCK)
    peers = {layer: stock if layer == layout.STOCK else building.peer(layer) for layer in layers}
    return {layer: dict(drivers.drivers(peers[layer], stock, quicgo), proxy=proxy) for layer in layers}, hashes


def run_one(case, started, hashes):
    """Runs a case over each layer: the reasons of failure by layer, and the frames of these streams."""
    reasons, frames = {}, {}
    for layer, by_name in started.items():
        began = time.monotonic()
        reasons[layer], outcome = running.run(case, by_name, hashes, layer)
        seconds = time.monotonic() - began
        verdict = 'passes' if reasons[layer] is None else 'FAILS'
        print(f'{case.name:44} {NAMES[layer]:6} {verdict:7} {seconds:5.1f} s', flush=True)
        if reasons[layer]:
            print(f'    {reasons[layer]}\n    logs: {outcome.folder.relative_to(layout.ROOT)}', flush=True)
            if case.cause:
                print(f'    known cause: {case.cause}', flush=True)
        frames = {direction: outcome.frames(direction) for direction in ('sent', 'received')}
    return reasons, frames


def summary(results, layers):
    """The table by peer and role, how many cases passed."""
    rows = collections.defaultdict(lambda: dict.fromkeys(layers, 0))
    totals = collections.Counter()
    for case, reasons in results:
        row = case.name.split('/')[0]
        totals[row] += 1
        for layer, reason in reasons.items():
            rows[row][layer] += reason is None
    print(f'\n{"peer":20}{"cases":>6}' + ''.join(f'{NAMES[layer]:>7}' for layer in layers))
    for row in sorted(rows):
        print(f'{row:20}{totals[row]:6}' + ''.join(f'{rows[row][layer]:7}' for layer in layers))
    passed = {layer: sum(reasons[layer] is None for _, reasons in results) for layer in layers}
    print(f'{"all":20}{len(results):6}' + ''.join(f'{passed[layer]:7}' for layer in layers))


def tell_frames(total):
    for direction in ('sent', 'received'):
        counts = ', '.join(f'{count:,} {kind}' for kind, count in sorted(total[direction].items()) if count)
        print(f'frames {direction}: {counts}')


def worse(results):
    """The cases that stock passes and these streams do not."""
    both = [(case, reasons) for case, reasons in results if len(reasons) == 2]
    return [case.name for case, reasons in both if reasons[layout.STOCK] is None and reasons[layout.OURS] is not None]


def main(options):
    found = chosen(options.patterns)
    if options.list or not found:
        print(*(case.name for case in found), f'{len(found)} cases', sep='\n')
        return 0 if found else 1
    layers = [layout.STOCK, layout.OURS] if options.stock else [layout.STOCK if options.only_stock else layout.OURS]
    began = time.monotonic()
    started, hashes = prepare(layers)
    print(f'{len(found)} cases; built in {time.monotonic() - began:.0f} s; logs in {LOGS.relative_to(layout.ROOT)}', flush=True)
    results, total = [], collections.defaultdict(collections.Counter)
    for case in found:
        reasons, frames = run_one(case, started, hashes)
        results.append((case, reasons))
        for direction, counts in frames.items():
            total[direction].update(counts)
    summary(results, layers)
    tell_frames(total)
    unexplained = [case.name for case, reasons in results if reasons[layers[-1]] is not None and not case.cause]
    print(f'{time.monotonic() - began:.0f} s in all')
    if options.stock:
        print('passed by stock and not by these streams:', ', '.join(worse(results)) or 'none')
    print('failed without a known cause:', ', '.join(unexplained) or 'none')
    return 1 if unexplained or worse(results) else 0
