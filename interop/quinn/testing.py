"""quinn-proto's own tests, on its own streams and on those of this repository, side by side."""
import re
import subprocess

from quinn import layout

LINE = re.compile(r'^test (\S+) \.\.\. (\w+)', re.M)
# The tests of what was replaced are not there on this layer.
REPLACED = re.compile(r'^connection::(streams|send_buffer)::')


def results_of(which):
    """What became of each test, by name."""
    folder = layout.lay(which) / 'quinn-proto'
    layout.cargo(which, 'test', '--lib', '--no-run', folder=folder).check_returncode()
    try:
        text = layout.cargo(which, 'test', '--lib', '--', '--test-threads=1', folder=folder, timeout=900).stdout
    except subprocess.TimeoutExpired as error:
        text = (error.stdout or b'').decode('utf-8', 'replace')
    (layout.BUILD / f'tests-{which}.txt').write_text(text, encoding='utf-8')
    return dict(LINE.findall(text))


def is_end_to_end(name):
    return name.startswith('tests::')


def tell(stock, ours):
    """Prints the results side by side, and gives how many end-to-end tests pass there and not here, or fail that are only here."""
    worse = 0
    for name in sorted(stock, key=lambda name: (not is_end_to_end(name), name)):
        here = ours.get(name, 'replaced' if REPLACED.match(name) else 'missing')
        print(f'{stock[name]:7} {here:9} {name}')
        worse += is_end_to_end(name) and stock[name] == 'ok' and here != 'ok'
    for title, wanted in (('end to end', True), ('other parts', False)):
        names = [name for name in stock if is_end_to_end(name) == wanted]
        passed = sum(stock[name] == 'ok' for name in names)
        here = sum(ours.get(name) == 'ok' for name in names)
        gone = sum(bool(REPLACED.match(name)) for name in names)
        print(f'{title}: {passed} of {len(names)} pass on the stock streams; on these {here} of {len(names) - gone}')
    for name in sorted(set(ours) - set(stock)):
        print(f'{"none":7} {ours[name]:9} {name}')
        worse += ours[name] != 'ok'
    return worse


def run(_words):
    layout.install()
    stock = results_of(layout.STOCK)
    return int(tell(stock, results_of(layout.OURS)) != 0)
