"""Firefox, headless."""
import json
import subprocess

from common.folders import CERTIFICATES
from common.processes import Process

PACKAGES = ['firefox-esr', 'libnss3-tools']


def preferences(port):
    """HTTP/3 from the first packet on, our certificate authority, and no request to anybody else."""
    return {
        'network.http.http3.enable': True,
        'network.http.http3.alt-svc-mapping-for-testing': f'localhost;h3=:{port}',
        'network.http.http3.force-quic-on': f'localhost:{port}',
        'network.http.http3.disable_when_third_party_roots_found': False,
        'network.http.speculative-parallel-limit': 0,
        'network.dns.disableIPv6': True,
        'network.trr.mode': 5,
        'network.captive-portal-service.enabled': False,
        'network.connectivity-service.enabled': False,
        'app.update.enabled': False,
        'browser.safebrowsing.malware.enabled': False,
        'browser.safebrowsing.phishing.enabled': False,
        'browser.shell.checkDefaultBrowser': False,
        'browser.startup.homepage_override.mstone': 'ignore',
        'datareporting.policy.dataSubmissionEnabled': False,
        'extensions.systemAddon.update.enabled': False,
        'security.sandbox.content.level': 0,
        'services.settings.server': 'http://127.0.0.1:9/v1',
        'toolkit.telemetry.enabled': False,
    }


def prepare(profile, port):
    """Writes the preferences into a profile, and our certificate authority into its database."""
    lines = (f'user_pref({json.dumps(name)}, {json.dumps(value)});\n' for name, value in preferences(port).items())
    (profile / 'user.js').write_text(''.join(lines), encoding='utf-8')
    database = ['-d', f'sql:{profile}']
    subprocess.run(['certutil', '-N', *database, '--empty-password'], check=True)
    authority = ['-n', 'interop-root', '-t', 'CT,,', '-i', CERTIFICATES / 'root.pem']
    subprocess.run(['certutil', '-A', *authority, *database], check=True)


def start(port, picture, profile, folder):
    """Has Firefox load the page, take a picture of it at its load event, and end."""
    prepare(profile, port)
    words = ['firefox-esr', '--headless', '--no-remote', '--profile', profile, '--window-size=900,640', '--screenshot', picture,
             f'https://localhost:{port}/']
    env = {'HOME': str(profile), 'MOZ_DISABLE_CONTENT_SANDBOX': '1'}
    return Process('firefox', words, folder, env=env, ends_with_input=False)
