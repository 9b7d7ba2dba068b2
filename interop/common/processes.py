"""Programs that run beside this one, with their output in files."""
import os
import pathlib
import signal
import socket
import subprocess
import time

POLL_SECONDS = 0.02
STOP_SECONDS = 5


class Failure(Exception):
    """Why a case failed, in a sentence."""


def free_port():
    """A port of 127.0.0.1 that is free for UDP and TCP."""
    for _ in range(100):
        with socket.socket(socket.AF_INET, socket.SOCK_DGRAM) as udp, socket.socket() as tcp:
            udp.bind(('127.0.0.1', 0))
            port = udp.getsockname()[1]
            try:
                tcp.bind(('127.0.0.1', port))
            except OSError:
                continue
            return port
    raise Failure('no port is free')


def is_bound(port):
    """Whether a socket of UDP has the port."""
    address = f'0100007F:{port:04X}'
    everywhere = f'00000000:{port:04X}'
    rows = pathlib.Path('/proc/net/udp').read_text(encoding='ascii').splitlines()[1:]
    return any(row.split()[1] in (address, everywhere) for row in rows)


class Process:
    """A program in a process group of its own. Its output goes to FOLDER/NAME.out and FOLDER/NAME.err."""

    def __init__(self, name, words, folder, env=None, cwd=None, ends_with_input=True):
        self.name, self.words = name, [str(word) for word in words]
        self.ends_with_input = ends_with_input
        self.out, self.err = folder / f'{name}.out', folder / f'{name}.err'
        self.began = time.monotonic()
        with open(self.out, 'wb') as out, open(self.err, 'wb') as err:
            self.process = subprocess.Popen(
                self.words, stdin=subprocess.PIPE, stdout=out, stderr=err, start_new_session=True, cwd=cwd,
                env=dict(os.environ, **(env or {})))

    def __enter__(self):
        return self

    def __exit__(self, *_):
        self.stop()

    def lines(self):
        return self.out.read_text(encoding='utf-8', errors='replace').splitlines()

    def until(self, condition, seconds):
        """Waits until a condition is true; false if the time or the program ended first."""
        deadline = time.monotonic() + seconds
        while time.monotonic() < deadline:
            if condition():
                return True
            if self.process.poll() is not None:
                return bool(condition())
            time.sleep(POLL_SECONDS)
        return False

    def line(self, prefix, seconds):
        """Waits for a line of output, and gives what follows the prefix."""
        found = []

        def is_there():
            found[:] = [line[len(prefix):] for line in self.lines() if line.startswith(prefix)]
            return found

        if not self.until(is_there, seconds):
            raise Failure(f'{self.name} did not print "{prefix.strip()}" in {seconds} seconds')
        return found[0]

    def bound(self, port, seconds=10):
        """Waits until the program listens."""
        if not self.until(lambda: is_bound(port), seconds):
            raise Failure(f'{self.name} does not listen on port {port}')

    def say(self, line):
        self.process.stdin.write(f'{line}\n'.encode('ascii'))
        self.process.stdin.flush()

    def ended(self, seconds):
        """Waits for the end of the program, and gives its exit code."""
        try:
            return self.process.wait(seconds)
        except subprocess.TimeoutExpired:
            raise Failure(f'{self.name} did not end in {seconds} seconds') from None

    def stop(self):
        """Ends the program: by the end of its input, or by signals to its group."""
        try:
            self.process.stdin.close()
        except BrokenPipeError:
            pass
        if self.ends_with_input and self.has_ended():
            return
        for kind in (signal.SIGTERM, signal.SIGKILL):
            try:
                os.killpg(self.process.pid, kind)
            except ProcessLookupError:
                pass
            if self.has_ended():
                return

    def has_ended(self):
        try:
            self.process.wait(STOP_SECONDS)
        except subprocess.TimeoutExpired:
            return False
        return True
