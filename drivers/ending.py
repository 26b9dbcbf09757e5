"""Runs a program to its end: what it says is kept within a bound, and where its time is over, or a signal has stopped it, it
may say last words."""

import os
import signal
import subprocess
import threading
import time

FIRST, LAST = 1 << 20, 1 << 16  # bytes: of what a program says, the first of them and the last
GRACE, MOMENT = 15, 0.1  # seconds: for last words, and between two looks


class Said:
    """What comes through a pipe: its beginning and its end, and how much there was between."""

    def __init__(self, pipe):
        self.first, self.last, self.left_out = b"", b"", 0
        self.reader = threading.Thread(target=self.read, args=[os.dup(pipe.fileno())], daemon=True)
        self.reader.start()

    def read(self, own):
        """Reads until nobody writes any more. A process that the program has left behind may do so for long."""
        while chunk := os.read(own, 1 << 16):
            room = FIRST - len(self.first)
            self.first += chunk[:room]
            rest = self.last + chunk[room:]
            self.left_out += max(len(rest) - LAST, 0)
            self.last = rest[-LAST:]
        os.close(own)

    def text(self):
        """Returns it as text, once the program has ended."""
        self.reader.join(2)
        between = f"\n.. {self.left_out} bytes are left out ..\n".encode() if self.left_out else b""
        return (self.first + between + self.last).decode(errors="replace")


def is_stopped(number, how):
    """Returns whether a signal has stopped the process, which is looked at and left as it is."""
    found = os.waitid(os.P_PID, number, os.WSTOPPED | os.WEXITED | os.WNOWAIT | how)
    return found is not None and found.si_code == os.CLD_STOPPED


def let_it_speak(number):
    """Waits until a signal stops the process, which then goes on to last words. Where a terminal stops and continues all, both
    of us go on."""
    try:
        while is_stopped(number, 0):
            time.sleep(MOMENT)
            if is_stopped(number, os.WNOHANG):
                os.kill(number, signal.SIGUSR2)
                os.kill(number, signal.SIGCONT)
    except (ChildProcessError, ProcessLookupError):
        return


def run_to_its_end(words, setting, seconds):
    """Returns what it says to standard error, and its exit status: None where its time was over."""
    with subprocess.Popen(words, env=setting, stderr=subprocess.PIPE) as made:
        said = Said(made.stderr)
        threading.Thread(target=let_it_speak, args=[made.pid], daemon=True).start()
        try:
            status = made.wait(seconds)
        except subprocess.TimeoutExpired:
            status = None
            made.terminate()
            try:
                made.wait(GRACE)
            except subprocess.TimeoutExpired:
                made.kill()
        made.wait()
        return said.text(), status
