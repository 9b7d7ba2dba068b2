"""Lays quinn-proto out twice below build/quinn: as it is installed, and on the streams of this repository."""
import os
import pathlib
import shutil
import subprocess
import sys

from common import packages
from common.folders import INTEROP, ROOT
from quinn import rules

HERE = INTEROP / 'quinn'
BUILD = ROOT / 'build' / 'quinn'
REGISTRY = pathlib.Path('/usr/share/cargo/registry')
PACKAGE = REGISTRY / 'quinn-proto-0.9.2'
STOCK, OURS = 'stock', 'ours'

PACKAGES = [f'librust-{name}-dev' for name in (
    'quinn-proto', 'quinn', 'hex-literal', 'lazy-static', 'assert-matches', 'tracing-subscriber', 'rustls', 'webpki', 'ring',
    'slab', 'tinyvec', 'rustls-native-certs', 'arbitrary', 'tokio', 'anyhow', 'clap', 'clap-derive', 'rand')]

CONFIG = f'''[source.crates-io]
replace-with = "debian"

[source.debian]
directory = "{REGISTRY}"
'''


def install():
    """Installs Debian's packages that are missing."""
    packages.install(PACKAGES)


def library():
    """The folder of libquic_streams.a, which is proved and made if it is not there."""
    folder = pathlib.Path(os.environ.get('QUIC_STREAMS_LIB_DIR', ROOT / 'build' / 'lib')).resolve()
    if not (folder / 'libquic_streams.a').is_file():
        print('making', folder / 'libquic_streams.a', flush=True)
        subprocess.run(['make', '-s', '-C', ROOT], check=True)
    return folder


def files_of(folder):
    return {path.relative_to(folder): path.read_bytes() for path in folder.rglob('*') if path.is_file()}


def put(folder, files):
    """Makes a folder hold just these files; those that are the same are not touched, so cargo builds only what changed."""
    for path in [path for path in folder.rglob('*') if path.is_file()]:
        if path.relative_to(folder) not in files:
            path.unlink()
    for name, data in files.items():
        path = folder / name
        if not path.is_file() or path.read_bytes() != data:
            path.parent.mkdir(parents=True, exist_ok=True)
            path.write_bytes(data)


# Makes a certificate for the names $2, and its key, in files that begin with $1.
OPENSSL = '''
    openssl req -x509 -newkey ec -pkeyopt ec_paramgen_curve:prime256v1 -nodes -keyout $1key.pem -out $1cert.pem -days 3650 \\
        -subj /CN=localhost -addext "subjectAltName=$2" -addext basicConstraints=critical,CA:FALSE &&
    openssl x509 -in $1cert.pem -outform der -out $1cert.der &&
    openssl pkcs8 -topk8 -nocrypt -in $1key.pem -outform der -out $1key.der'''


def certificates():
    """A certificate for localhost, and one with a thousand names more, each with its key."""
    folder = BUILD / 'rcgen'
    folder.mkdir(parents=True, exist_ok=True)
    for kind, more in (('', 0), ('big-', 1000)):
        if not (folder / f'{kind}key.der').is_file():
            names = ','.join(['DNS:localhost'] + [f'DNS:foo_{number}' for number in range(more)])
            subprocess.run(['sh', '-c', OPENSSL, 'sh', kind, names], cwd=folder, check=True, capture_output=True)
    for name in ('Cargo.toml', 'src/lib.rs'):
        (folder / name).parent.mkdir(exist_ok=True)
        (folder / name).write_bytes((HERE / 'rcgen' / name).read_bytes())


def package_of(which):
    """The files of quinn-proto, as installed, or on the streams of this repository."""
    files = {name: data for name, data in files_of(PACKAGE).items() if name.name != '.cargo-checksum.json' and name.name != 'Cargo.lock'}
    if which == OURS:
        gone = [pathlib.Path(name) for name in rules.GONE]
        files = {name: data for name, data in files.items() if not any(name == g or g in name.parents for g in gone)}
        files = rules.apply(files, str(ROOT / 'bindings' / 'rust'))
        for name, data in files_of(HERE / 'adapter').items():
            files[pathlib.Path('src/connection/streams') / name] = data
    manifest = pathlib.Path('Cargo.toml')
    files[manifest] += b'\n[dev-dependencies.rcgen]\npath = "../../rcgen"\n'
    return files


def lay(which):
    """Lays out quinn-proto; gives the folder above it."""
    if not PACKAGE.is_dir():
        sys.exit(f'{PACKAGE} is not there')
    certificates()
    folder = BUILD / which
    (folder / '.cargo').mkdir(parents=True, exist_ok=True)
    (folder / '.cargo' / 'config.toml').write_text(CONFIG, encoding='utf-8')
    kept = [name for name in ('Cargo.lock',) if (folder / 'quinn-proto' / name).is_file()]
    files = package_of(which)
    for name in kept:
        files[pathlib.Path(name)] = (folder / 'quinn-proto' / name).read_bytes()
    put(folder / 'quinn-proto', files)
    return folder


def cargo(which, *words, folder, **more):
    """Runs cargo on a layout, quietly unless it fails to build."""
    env = dict(os.environ, CARGO_TARGET_DIR=str(BUILD / 'target'), CARGO_NET_OFFLINE='true')
    if which == OURS:
        env['QUIC_STREAMS_LIB_DIR'] = str(library())
    ran = subprocess.run(['cargo', *words], cwd=folder, env=env, capture_output=True, text=True, **more)
    if ran.returncode != 0 and 'could not compile' in ran.stderr:
        sys.exit(ran.stderr)
    return ran


def program(which, source, name):
    """Builds a program in Rust over one of the two layers, and returns where it is."""
    folder = lay(which) / source.name
    files = files_of(source)
    if which == OURS:
        files[pathlib.Path('Cargo.toml')] += b'\n[patch.crates-io]\nquinn-proto = { path = "../quinn-proto" }\n'
    lock = pathlib.Path('Cargo.lock')
    if (folder / lock).is_file():
        files[lock] = (folder / lock).read_bytes()
    put(folder, files)
    cargo(which, 'build', '--release', folder=folder).check_returncode()
    place = BUILD / f'{name}-{which}'
    new = place.with_suffix('.new')
    shutil.copy(BUILD / 'target' / 'release' / name, new)
    new.replace(place)
    return place


def clean(_words):
    shutil.rmtree(BUILD, ignore_errors=True)
    return 0
