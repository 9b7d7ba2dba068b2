"""Where things are. All that is made is below build/."""
import pathlib

INTEROP = pathlib.Path(__file__).resolve().parent.parent
ROOT = INTEROP.parent
BUILD = ROOT / 'build' / 'interop'
SITE = BUILD / 'site'
CERTIFICATES = BUILD / 'certificates'
LOGS = BUILD / 'logs'
