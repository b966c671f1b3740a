"""Servers of their own, in a folder that is thrown away, and which end with the program that started them."""

import contextlib
import ctypes
import os
import pwd
import shutil
import signal
import subprocess
import sys
import tempfile
import time


class Missing(Exception):
    """Something that is needed isn't installed."""


class Failed(Exception):
    """A step failed, and the message says which."""


@contextlib.contextmanager
def room():
    """A folder of its own, which is removed at the end. Its path is short, since that of a socket has to be."""
    path = tempfile.mkdtemp(prefix="pdgf-", dir=None if len(tempfile.gettempdir()) < 60 else "/tmp")
    try:
        yield path
    finally:
        shutil.rmtree(path, ignore_errors=True)


def end_by_signals():
    """Lets a signal end the program as an exception does, so that what it started is ended too."""
    for it in (signal.SIGTERM, signal.SIGHUP):
        signal.signal(it, lambda number, _: sys.exit(128 + number))


def program(name, folders=()):
    """The path of a program: on the path, or in one of some folders."""
    path = os.pathsep.join([os.environ.get("PATH", ""), "/usr/sbin", "/usr/local/sbin", *folders])
    found = shutil.which(name, path=path)
    if found is None:
        raise Missing(name)
    return found


class Owner:
    """The user that runs a server: who calls, or another one where root calls, whom servers refuse."""

    def __init__(self, names):
        self.user = None
        if os.getuid() == 0:
            for name in names:
                with contextlib.suppress(KeyError):
                    self.user = pwd.getpwnam(name)
                    return
            raise Missing(f"a user {' or '.join(names)} to run the server, which root may not")

    def give(self, path):
        if self.user:
            os.chown(path, self.user.pw_uid, self.user.pw_gid)

    def how(self, folder):
        """What a program of the server's needs. Its temporary files are in its own folder: another may not be open to the user."""
        become = {}
        if self.user:
            become = {"user": self.user.pw_uid, "group": self.user.pw_gid, "extra_groups": []}
        return {"stdin": subprocess.DEVNULL, "env": {**os.environ, "LC_ALL": "C", "TMPDIR": folder}, **become}

    def run(self, words, folder):
        ran = subprocess.run(words, cwd=folder, stdout=subprocess.PIPE, stderr=subprocess.STDOUT, errors="replace", **self.how(folder))
        if ran.returncode != 0:
            raise Failed(f"{os.path.basename(words[0])} failed: {ending(ran.stdout)}")

    @contextlib.contextmanager
    def serve(self, words, folder, is_ready, stop):
        """Runs a server until the end. It gets the signal `stop` then, and also where this program is killed."""
        with open(f"{folder}/log", "wb") as log:
            server = subprocess.Popen(
                words, cwd=folder, stdout=log, stderr=log, start_new_session=True, preexec_fn=lambda: ended_with_parent(stop), **self.how(folder)
            )
        try:
            wait_for(is_ready, server, f"{folder}/log")
            yield
        finally:
            server.send_signal(stop)
            try:
                server.wait(timeout=30)
            except subprocess.TimeoutExpired:
                server.kill()
                server.wait()


def ended_with_parent(number):
    of_parent_death = 1
    ctypes.CDLL(None).prctl(of_parent_death, int(number))


def wait_for(is_ready, server, log):
    for _ in range(600):
        if server.poll() is not None:
            break
        if is_ready():
            return
        time.sleep(0.1)
    with open(log, errors="replace") as file:
        raise Failed(f"the server doesn't start: {ending(file.read())}")


def ending(text):
    return " ".join(text.strip().splitlines()[-4:])
