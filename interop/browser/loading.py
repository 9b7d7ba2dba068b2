"""Loads the page in a browser, and checks what the page reports."""
import contextlib
import json
import pathlib
import shutil
import tempfile
import time

from browser import chromium, firefox
from common import building, certificates, packages, site
from common.folders import BUILD, CERTIFICATES, LOGS, ROOT, SITE
from common.processes import Failure, Process
from quinn import layout

BROWSERS = {'chromium': chromium, 'firefox': firefox}
FAULTS = ['--loss', 3, '--reorder', 10, '--repeat', 5, '--damage', 1]
PAGE_SECONDS = 90
# The script and the hashes, the pictures, the fetches and the upload. Browsers add the cancelled download at a time of their own.
RESOURCES = 2 + site.PICTURES + site.SMALL + 1


def wrong(report):
    """What is wrong in the report of the page, or None."""
    if 'error' in report:
        return report['error']
    wanted = {'pictures': site.PICTURES, 'fetches': site.SMALL, 'hashes': site.SMALL, 'upload': True, 'cancelled': True, 'page': 'h3'}
    for name, value in wanted.items():
        if report.get(name) != value:
            return f'{name}: {report.get(name)} for {value}'
    if set(report['resources']) != {'h3'} or report['resources']['h3'] < RESOURCES:
        return f'protocols {report["resources"]} for {RESOURCES} resources'
    return None


def serve(peer, folder):
    words = [peer, 'serve', '--certificate', CERTIFICATES / 'cert.der', '--key', CERTIFICATES / 'key.der', '--files', SITE]
    return Process('server', words, folder)


def load(name, peer, proxy, folder):
    """Has a browser load the page: its report, the picture, and the seconds that it took."""
    began, picture = time.monotonic(), folder / 'page.png'
    with contextlib.ExitStack() as stack:
        server = stack.enter_context(serve(peer, folder))
        port = int(server.line('ready ', 10))
        if proxy:
            relay = stack.enter_context(Process('proxy', [proxy, '--target', port, *FAULTS], folder))
            port = int(relay.line('ready ', 10))
        profile = pathlib.Path(stack.enter_context(tempfile.TemporaryDirectory(ignore_cleanup_errors=True)))
        browser = stack.enter_context(BROWSERS[name].start(port, picture, profile, folder))
        report = json.loads(server.line('report ', PAGE_SECONDS))
        seconds = time.monotonic() - began
        browser.ended(PAGE_SECONDS)
    return report, picture, seconds


def refused(folder):
    """Why a connection was closed for an error, or None."""
    lines = (folder / 'server.out').read_text(encoding='utf-8').splitlines()
    return next((line for line in lines if line.startswith('closed error')), None)


def check(name, peer, proxy, folder):
    """Loads the page once; false if something is wrong."""
    shutil.rmtree(folder, ignore_errors=True)
    folder.mkdir(parents=True)
    way = 'through the lossy proxy' if proxy else 'directly'
    try:
        report, picture, seconds = load(name, peer, proxy, folder)
        reason = wrong(report) or refused(folder)
        if reason is None and not picture.is_file():
            reason = 'there is no picture of the page'
    except Failure as failure:
        report, reason, seconds = {}, str(failure), 0
    if reason:
        print(f'{name} {way}: FAILS: {reason}\n    logs: {folder.relative_to(ROOT)}', flush=True)
        return False
    print(f'{name} {way}: passes in {seconds:.1f} s: {report["pictures"]} pictures, {report["fetches"]} fetches with their SHA-256, '
          f'the upload and the cancelled download; page {report["page"]}, resources {json.dumps(report["resources"])}', flush=True)
    if proxy:
        print(f'    proxy: {(folder / "proxy.out").read_text(encoding="ascii").splitlines()[-1]}')
    print(f'    picture: {picture.relative_to(ROOT)}', flush=True)
    return True


def main(options):
    layer = layout.STOCK if options.stock else layout.OURS
    packages.install(layout.PACKAGES + ['libnghttp3-dev'] + BROWSERS[options.browser].PACKAGES)
    certificates.make()
    site.make()
    peer, proxy = building.peer(layer), building.proxy()
    BUILD.mkdir(parents=True, exist_ok=True)
    ways = {'direct': None, 'lossy': proxy}
    wanted = [way for way in ways if getattr(options, way)] or list(ways)
    results = [check(options.browser, peer, ways[way], LOGS / layer / f'{options.browser}-{way}') for way in wanted]
    return 0 if all(results) else 1
