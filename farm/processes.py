"""The processes that a driver begins. Each has a mark in its environment that no other driver gives, and so has all that it begins itself. The mark
stands in the folder, so that a driver which comes after a crash ends what the one before has left, and no process of anybody else: a mark is
drawn at random, and can't go over to a stranger with a process number that is given again."""
import os
import re
import secrets
import signal
import subprocess
import time

NAME = "BPRICE_FARM"  # of the mark in the environment
LONGEST = 5.0  # seconds that ending takes at most: a process that waits for a disk may last longer
AGAIN = 0.02  # seconds from one look for marked processes to the next


class Processes:
    """Those of one driver, which holds the folder's lock."""

    def __init__(self, folder):
        self.folder, self.file = folder, folder / "driver"
        if self.file.exists():
            end_marked(self.file.read_text(encoding="latin-1").strip())
        self.mark = secrets.token_hex(16)
        part = folder / "driver.part"
        part.write_text(self.mark + "\n", encoding="ascii")
        os.replace(part, self.file)

    def begin(self, words, **options):
        """A process in the folder, in a session of its own, so that a terminal's Ctrl-C does not reach it."""
        return subprocess.Popen(words, cwd=self.folder, env={**os.environ, NAME: self.mark}, start_new_session=True, **options)

    def call(self, words, look):
        """What a process prints, and its status. From time to time `look` is called, which may raise what ends the process."""
        child = self.begin(words, stdin=subprocess.DEVNULL, stdout=subprocess.PIPE)
        try:
            while True:
                try:
                    return child.communicate(timeout=0.1)[0], child.returncode
                except subprocess.TimeoutExpired:
                    look()
        finally:
            end(child)

    def end_all(self):
        end_marked(self.mark)


def end(child):
    """Ends a process with those of its group, where it runs."""
    if child.poll() is None:
        os.killpg(child.pid, signal.SIGKILL)
        child.wait()
    if child.stdout is not None:
        child.stdout.close()


def end_marked(mark):
    """Ends all processes with this mark, and those that they begin meanwhile."""
    if not re.fullmatch("[0-9a-f]{32}", mark):
        return
    until = time.monotonic() + LONGEST
    while any([end_if_marked(int(name), mark) for name in list_processes()]) and time.monotonic() < until:
        time.sleep(AGAIN)


def list_processes():
    try:
        return [name for name in os.listdir("/proc") if name.isdigit()]
    except FileNotFoundError:
        return []


def end_if_marked(number, mark):
    """Whether the process of a number had the mark, and was ended. The process is held by a descriptor before its mark is read, so that it is the same
    one that is ended."""
    try:
        held = os.pidfd_open(number)
    except OSError:
        return False
    try:
        with open(f"/proc/{number}/environ", "rb") as environment:
            is_marked = f"{NAME}={mark}".encode() in environment.read().split(b"\0")
        if is_marked:
            signal.pidfd_send_signal(held, signal.SIGKILL)
        return is_marked
    except OSError:
        return False
    finally:
        os.close(held)
