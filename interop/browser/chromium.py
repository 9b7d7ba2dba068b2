"""Chromium, headless."""
from common import certificates
from common.processes import Process

PACKAGES = ['chromium']


def start(port, picture, profile, folder):
    """Has Chromium load the page, take a picture of it at its load event, and end."""
    origin = f'localhost:{port}'
    words = [
        'chromium', '--headless=new', '--no-sandbox', '--disable-gpu', '--disable-dev-shm-usage', '--hide-scrollbars',
        '--disable-background-networking', '--disable-component-update', '--no-first-run', f'--user-data-dir={profile}',
        '--enable-quic', f'--origin-to-force-quic-on={origin}', '--host-resolver-rules=MAP localhost 127.0.0.1',
        f'--ignore-certificate-errors-spki-list={certificates.public_key_hash()}', '--window-size=900,640',
        f'--screenshot={picture}', '--timeout=60000', f'https://{origin}/']
    return Process('chromium', words, folder, env={'HOME': str(profile)}, ends_with_input=False)
