"""How each implementation is started, from the options of a case.

Options have the names of the command lines of the two peers here. `True` is a flag.
"""
from common import site
from common.folders import CERTIFICATES, SITE
from common.processes import Process

THESE, QUINN, QUIC_GO, NGTCP2, CADDY = 'these', 'quinn', 'quic-go', 'ngtcp2', 'caddy'


def words_of(options):
    words = []
    for name, value in options.items():
        words += [f'--{name}'] if value is True else [f'--{name}', value]
    return words


class Peer:
    """One of the two programs of this folder: over quinn, or over quic-go."""

    def __init__(self, program, encoding):
        self.program = program
        self.certificate, self.key, self.root = (
            CERTIFICATES / f'{name}.{encoding}' for name in ('cert', 'key', 'root'))

    def server(self, case, port, folder):
        words = [self.program, 'serve', '--port', port, '--certificate', self.certificate, '--key', self.key,
                 '--files', SITE, *words_of(case.server_options)]
        if case.server == QUIC_GO:
            words += ['--protocol', case.protocol]
        return Process('server', words, folder)

    def client(self, case, port, folder, _round):
        words = [self.program, 'fetch', '--port', port, '--root', self.root, '--protocol', case.protocol,
                 *words_of(case.client_options), *case.paths]
        return Process('client', words, folder)


# The options of a case in the words of ngtcp2's programs.
NGTCP2_NAMES = {
    'receive-window': 'max-data', 'stream-window': 'max-stream-data-bidi-local', 'max-bidirectional': 'max-streams-bidi',
    'key-update': 'key-update', 'change-local-addr': 'change-local-addr', 'nat-rebinding': 'nat-rebinding',
    'early-response': 'early-response', 'retry': 'validate-addr',
}


class Ngtcp2:
    """ngtcp2's example programs over GnuTLS. They speak HTTP/3 alone."""

    @staticmethod
    def words_of(options):
        words = []
        for name, value in options.items():
            if name == 'stream-window':
                # windows that do not grow
                words += [f'--max-stream-data-bidi-remote={value}', '--max-window=0', '--max-stream-window=0']
            if name in NGTCP2_NAMES:
                words += [f'--{NGTCP2_NAMES[name]}' + ('' if value is True else f'={value}')]
        return words

    def server(self, case, port, folder):
        words = ['/usr/sbin/gtlsserver', '-q', '--htdocs', SITE, *self.words_of(case.server_options),
                 '127.0.0.1', port, CERTIFICATES / 'key.pem', CERTIFICATES / 'cert.pem']
        return Process('server', words, folder, ends_with_input=False)

    def client(self, case, port, folder, number):
        downloads = folder / f'downloads-{number}'
        downloads.mkdir()
        words = ['gtlsclient', '-q', '--exit-on-all-streams-close', f'--download={downloads}', *self.words_of(case.client_options)]
        if 'post' in case.client_options:
            words += ['-m', 'POST', '-d', case.client_options['post']]
        if 'resume' in case.client_options:
            words += [f'--session-file={folder}/session', f'--tp-file={folder}/parameters']
        uris = [f'https://localhost:{port}{path}' for path in case.paths]
        return Process(f'client-{number}' if number else 'client', [*words, '127.0.0.1', port, *uris], folder)


CADDYFILE = '''
{{
    admin off
    auto_https off
    skip_install_trust
    default_bind 127.0.0.1
}}
https://localhost:{port} {{
    tls {certificates}/cert.pem {certificates}/key.pem
    root * {site}
    file_server
}}
'''


class Caddy:
    """The web server, which has HTTP/3 by quic-go."""

    def server(self, _case, port, folder):
        config = folder / 'Caddyfile'
        config.write_text(CADDYFILE.format(port=port, certificates=CERTIFICATES, site=SITE), encoding='utf-8')
        words = ['caddy', 'run', '--config', config, '--adapter', 'caddyfile']
        return Process('server', words, folder, env={'HOME': str(folder)}, ends_with_input=False)


def drivers(quinn, stock, quicgo):
    """The driver of each implementation; `quinn` is the program over the layer that is tested."""
    return {THESE: Peer(quinn, 'der'), QUINN: Peer(stock, 'der'), QUIC_GO: Peer(quicgo, 'pem'), NGTCP2: Ngtcp2(), CADDY: Caddy()}


def all_small():
    return site.paths_of('small', site.SMALL)


def all_parts():
    return site.paths_of('part', site.PARTS)
