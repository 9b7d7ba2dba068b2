"""The files that the servers serve: random bytes, and the page of the browser test."""
import hashlib
import json
import random
import shutil
import struct
import zlib

from common.folders import INTEROP, SITE

SIZES = {'1k': 1_000, '100k': 100_000, '1m': 1_000_000, '10m': 10_000_000, '50m': 50_000_000}
SMALL, PARTS, PICTURES = 200, 40, 50
PART_LENGTH = 250_000
PICTURE_SIDE = 96
PAGE = INTEROP / 'browser' / 'page'


def paths_of(folder, count):
    return tuple(f'/{folder}/{number}' for number in range(count))


def random_files(draw):
    """The paths and contents of the files of random bytes."""
    for name, length in SIZES.items():
        yield name, draw.randbytes(length)
    for number in range(SMALL):
        yield f'small/{number}', draw.randbytes(draw.randrange(1, 3000))
    for number in range(PARTS):
        yield f'part/{number}', draw.randbytes(PART_LENGTH)


def picture(draw, number):
    """A square of PNG with some noise in one channel, so that it does not shrink too much."""
    def pixel(x, y):
        return bytes(((2 * x + 5 * number) % 256, (2 * y + 3 * number) % 256, 96 + draw.randrange(16)))

    def chunk(kind, data):
        return struct.pack('>I', len(data)) + kind + data + struct.pack('>I', zlib.crc32(kind + data))

    side = range(PICTURE_SIDE)
    rows = b''.join(b'\0' + b''.join(pixel(x, y) for x in side) for y in side)
    head = struct.pack('>IIBBBBB', PICTURE_SIDE, PICTURE_SIDE, 8, 2, 0, 0, 0)
    return b'\x89PNG\r\n\x1a\n' + chunk(b'IHDR', head) + chunk(b'IDAT', zlib.compress(rows, 1)) + chunk(b'IEND', b'')


def make():
    """Makes the site if it is not there, and brings its page up to date. Returns the hashes of the files by their paths."""
    index = SITE.parent / 'site.json'
    if not index.is_file():
        shutil.rmtree(SITE, ignore_errors=True)
        draw, hashes = random.Random(7), {}
        for name, data in random_files(draw):
            write(name, data)
            hashes[f'/{name}'] = hashlib.sha256(data).hexdigest()
        for number in range(PICTURES):
            write(f'picture/{number}.png', picture(draw, number))
        write('after-report.png', picture(draw, PICTURES))
        index.write_text(json.dumps(hashes), encoding='utf-8')
    hashes = json.loads(index.read_text(encoding='utf-8'))
    for path in PAGE.iterdir():
        write(path.name, path.read_bytes())
    fetched = {path: hashes[path] for path in (*paths_of('small', SMALL - 1), '/1m')}
    write('hashes.json', json.dumps(fetched).encode('ascii'))
    return hashes


def write(name, data):
    path = SITE / name
    path.parent.mkdir(parents=True, exist_ok=True)
    path.write_bytes(data)
