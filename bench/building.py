"""Puts the files of quinn-proto into build/bench/quinn, and builds the programs that run the workloads."""
import os
import pathlib
import re
import shutil
import subprocess
import sys
from dataclasses import dataclass

HERE = pathlib.Path(__file__).resolve().parent
ROOT = HERE.parent
BUILD = ROOT / 'build' / 'bench'
REGISTRY = pathlib.Path('/usr/share/cargo/registry')
PACKAGE = REGISTRY / 'quinn-proto-0.9.2'
PACKAGES = [f'librust-{name}-dev' for name in ('quinn-proto', 'bytes', 'rustc-hash', 'thiserror', 'tinyvec', 'tracing')]

# The stream layer, and what it imports from the rest of the crate.
LAYER = ['assembler.rs', 'datagrams.rs', 'send_buffer.rs', 'spaces.rs', 'stats.rs',
         'streams/mod.rs', 'streams/recv.rs', 'streams/send.rs', 'streams/state.rs']
REST = ['coding.rs', 'frame.rs', 'transport_error.rs', 'varint.rs',
        'range_set/array_range_set.rs', 'range_set/btree_range_set.rs', 'range_set/mod.rs']

# Both sides are compiled for the processors for which the library is.
CONFIG = f'''[source.crates-io]
replace-with = "debian"

[source.debian]
directory = "{REGISTRY}"

[build]
rustflags = ["-C", "target-cpu=x86-64-v2"]
'''


@dataclass
class Edit:
    """A place in a file of 0.9.2 that 0.11 needs otherwise. The pattern must be found so many times."""
    file: str
    find: str
    put: str
    times: int = 1

    def apply(self, text):
        text, count = re.subn(self.find, self.put, text, flags=re.S)
        if count != self.times:
            raise SystemExit(f'{self.file}: {self.find!r} stands there {count} times, and not {self.times}')
        return text


# 0.11 names the type of a frame FrameType, and has two kinds of frames more; a malformed frame is not one of them.
EDITS = [
    Edit('transport_error.rs', r'frame::Type\b', 'frame::FrameType'),
    Edit('frame.rs', r'\bType\b(?!\(\{)', 'FrameType', 73),
    Edit('frame.rs', r'NewToken \{ token: Bytes \}', 'NewToken(Bytes)'),
    Edit('frame.rs', r'NewToken \{ \.\. \}', 'NewToken(_)'),
    Edit('frame.rs', r'Frame::NewToken \{\s+token: (.*?),\s+\}', r'Frame::NewToken(\1)'),
    Edit('frame.rs', r'Invalid \{ ty: \w+, reason: [^}]*\}', 'AckFrequency(AckFrequency), ImmediateAck'),
    Edit('frame.rs', r'Invalid \{ ty, \.\. \} => ty', 'AckFrequency(_) => FrameType(0xaf), ImmediateAck => FrameType(0x1f)'),
    Edit('frame.rs', r'Some\(Frame::Invalid \{.*?\}\)', 'panic!("malformed frame: {}", e.reason())'),
    Edit('frame.rs', r'\Z', '\n'.join([
        '', '#[derive(Debug)]', 'pub struct AckFrequency {', '    pub sequence: VarInt,', '    pub ack_eliciting_threshold: VarInt,',
        '    pub request_max_ack_delay: VarInt,', '    pub reordering_threshold: VarInt,', '}', ''])),
]


@dataclass
class Bench:
    """The programs that were built, and on what."""
    program: pathlib.Path
    parts: pathlib.Path
    counter: pathlib.Path
    quinn: str
    library: pathlib.Path


def installed(package):
    asked = subprocess.run(['dpkg-query', '-W', '-f', '${Status}', package], capture_output=True, text=True, check=False)
    return asked.stdout == 'install ok installed'


def install():
    """Installs Debian's packages that are missing."""
    missing = [package for package in PACKAGES if not installed(package)]
    if not missing:
        return
    command = ['apt-get', 'install', '-y', '-q', '--no-install-recommends', *missing]
    if os.geteuid() != 0:
        sys.exit(f'as root, type: {" ".join(command)}')
    print('installing', *missing, flush=True)
    subprocess.run(command, check=True, stdout=subprocess.DEVNULL)


def put(folder, files):
    """Makes a folder hold just these files. Those that are the same are not touched, so cargo builds only what changed."""
    for path in [path for path in folder.rglob('*') if path.is_file()]:
        if str(path.relative_to(folder)) not in files:
            path.unlink()
    for name, text in files.items():
        path = folder / name
        if not path.is_file() or path.read_text(encoding='utf-8') != text:
            path.parent.mkdir(parents=True, exist_ok=True)
            path.write_text(text, encoding='utf-8')


def read(folder, names, below):
    return {f'{below}/{name}': (folder / name).read_text(encoding='utf-8') for name in names}


def version_of(source):
    """The version of quinn-proto in a folder, or what is known of it."""
    state = source / 'src/connection/streams/state.rs'
    if not state.is_file():
        sys.exit(f'{source} has no src/connection/streams/state.rs: it is not the source of quinn-proto')
    if 'fair: bool' not in state.read_text(encoding='utf-8'):
        sys.exit(f'{source} is not quinn-proto 0.11')
    manifest = source / 'Cargo.toml'
    stands = re.search(r'^version = "(.*?)"', manifest.read_text(encoding='utf-8'), re.M) if manifest.is_file() else None
    return stands[1] if stands else '0.11'


def lay_out(source):
    """Puts the crate with quinn-proto's files into build/bench/quinn. Returns the version of its stream layer."""
    if not PACKAGE.is_dir():
        sys.exit(f"{PACKAGE} is not there: Debian's package is of another version")
    own = ['lib.rs', 'connection/mod.rs', 'connection/endpoint.rs', 'connection/parts.rs']
    files = read(PACKAGE / 'src', REST, 'src')
    files |= read((source or PACKAGE) / 'src/connection', LAYER, 'src/connection')
    files |= read(HERE / 'quinn/src', own, 'src')
    files |= {'Cargo.toml': (HERE / 'quinn/Cargo.toml').read_text(encoding='utf-8')}
    for edit in EDITS if source else []:
        files[f'src/{edit.file}'] = edit.apply(files[f'src/{edit.file}'])
    put(BUILD / 'quinn', files)
    return version_of(source) if source else '0.9.2'


def library(folder):
    """The folder of libquic_streams.a."""
    folder = folder or pathlib.Path(os.environ.get('QUIC_STREAMS_LIB_DIR') or ROOT / 'build/lib').resolve()
    if not (folder / 'libquic_streams.a').is_file():
        sys.exit(f'{folder / "libquic_streams.a"} is not there: type make at the top of the repository')
    return folder


def compile_counter():
    """Compiles the counter of the heap."""
    counter = BUILD / 'heap_counter.so'
    flags = ['-std=c11', '-O2', '-Wall', '-Wextra', '-Wpedantic', '-Werror', '-shared', '-fPIC']
    subprocess.run([os.environ.get('CC', 'cc'), *flags, HERE / 'heap_counter.c', '-o', counter], check=True)
    return counter


def build(folder, source, streambench):
    """Builds the programs on the library in a folder, on a source of quinn-proto (Debian's if none), and on libstreambench.a."""
    folder = library(folder)
    install()
    version = lay_out(source)
    (BUILD / '.cargo').mkdir(exist_ok=True)
    (BUILD / '.cargo/config.toml').write_text(CONFIG, encoding='utf-8')
    env = dict(os.environ, QUIC_STREAMS_LIB_DIR=str(folder), CARGO_NET_OFFLINE='true')
    made = ROOT / 'crates/streambench/out/libstreambench.a'
    if streambench or made.is_file():
        env['STREAMBENCH'] = str((streambench or made).resolve())
    words = ['cargo', 'build', '--release', '--quiet', '--manifest-path', HERE / 'driver/Cargo.toml', '--target-dir', BUILD / 'target']
    if not source:
        words += ['--features', 'quinn_0_9']
    subprocess.run(words, cwd=BUILD, env=env, check=True)
    programs = BUILD / 'target/release'
    return Bench(programs / 'bench', programs / 'parts', compile_counter(), f'quinn-proto {version}', folder)


def clean():
    shutil.rmtree(BUILD, ignore_errors=True)
    return 0
