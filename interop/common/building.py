"""The programs of the tests."""
import os
import subprocess

from common.folders import BUILD, INTEROP
from quinn import layout

GO_PACKAGES = ['golang-go', 'golang-github-lucas-clemente-quic-go-dev', 'golang-golang-x-sync-dev']


def proxy():
    return layout.program(layout.STOCK, INTEROP / 'proxy', 'lossy-proxy')


def peer(which):
    """The peer over quinn, on one of the two layers."""
    return layout.program(which, INTEROP / 'peer', 'peer')


def quicgo():
    """The peer over quic-go, as Debian packages it."""
    BUILD.mkdir(parents=True, exist_ok=True)
    env = dict(os.environ, GO111MODULE='off', GOPATH='/usr/share/gocode', GOCACHE=str(BUILD / 'gocache'))
    program = BUILD / 'quicgo'
    subprocess.run(['go', 'build', '-o', program, '.'], cwd=INTEROP / 'peers' / 'quicgo', env=env, check=True)
    return program
