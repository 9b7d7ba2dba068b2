"""Packages of Debian that the programs here need."""
import shutil
import subprocess


def is_installed(package):
    if shutil.which('dpkg-query') is None:
        return False
    asked = subprocess.run(['dpkg-query', '-W', '-f', '${Status}', package], capture_output=True, text=True)
    return asked.stdout == 'install ok installed'


def missing(packages):
    return [package for package in packages if not is_installed(package)]


def install(packages):
    """Installs what is missing, as root."""
    wanted = missing(packages)
    if wanted:
        print('installing', *wanted, flush=True)
        subprocess.run(['apt-get', 'update', '-q'], check=True, stdout=subprocess.DEVNULL)
        words = ['apt-get', 'install', '-y', '-q', '--no-install-recommends', *wanted]
        subprocess.run(words, check=True, stdout=subprocess.DEVNULL)
