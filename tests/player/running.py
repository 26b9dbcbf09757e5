"""Runs the model's program, and the player on a manager."""

import json
import os
import shutil
import subprocess
import sys
import tempfile

import building

ONE_THREAD, BY_TURNS, AT_ONCE, WITHIN = "one", "by_turns", "at_once", "within"
SECONDS = 600  # for as many scripts as are played together
LEFT_OUT = 2**64 - 1
MOST_THREADS = 60  # the recorder has 64 seats


class Missing(Exception):
    """Something that isn't there, and how to get it."""


def program(name):
    """Returns the path of a program of this repository."""
    made = subprocess.run([building.TOP + "/bin/program", name, "quick"], stdout=subprocess.PIPE, text=True, check=False)
    if made.returncode:
        raise Missing(f"{name} can't be built")
    return made.stdout.strip()


class Model:
    """The program irpx."""

    def __init__(self, path=None):
        self.path = path or os.environ.get("IRPX") or program("irpx")

    def call(self, word, text):
        made = subprocess.run([self.path, word], input=text.encode(), capture_output=True, check=False, timeout=SECONDS)
        return made.stdout.decode(), made.stderr.decode().strip()

    def run(self, script):
        """Returns the transcript's lines, and what is wrong with the script, or None."""
        out, told = self.call("run", script if isinstance(script, str) else json.dumps(script))
        return parse(out), None if out else told

    def judge(self, text):
        """Returns `legal N`, `illegal N`, or why it is no transcript."""
        out, told = self.call("check", text)
        return (out or told).strip()


def parse(text):
    return [json.loads(line) for line in text.splitlines() if line]


class Record:
    """What came of one script: how it ended, the transcript, how many steps were made, what each was answered, and the
    recorder's counts."""

    def __init__(self, how, text, made, replies, counts):
        self.how, self.text, self.made, self.replies, self.counts = how, text, made, replies, counts
        self.lines = parse(text)

    def left_out(self):
        return self.replies.count(LEFT_OUT)


def read_answers(out, first_only=False):
    """Returns the records of a player's answers (answers.h), by the scripts' numbers. Of two answers of one script, as where
    it can't be taken down, the second counts, or the first."""
    at, found = 0, {}
    while at < len(out):
        end = out.index(b"\n", at)
        words = out[at:end].split()
        if not words or words[0] != b"@":
            break
        number, how, n, made = int(words[1]), words[2].decode(), int(words[3]), int(words[4])
        text = out[end + 1:end + 1 + n].decode()
        stop = out.find(b"\n", end + 1 + n)
        replies = [int(it) for it in out[end + 1 + n:stop].split()]
        if not first_only or number not in found:
            found[number] = Record(how, text, made, replies, [int(it) for it in words[5:10]])
        at = stop + 1
    return found


class Manager:
    """A manager that the player is built for: the words that start it, and its environment. This is the host; edited files
    take the place of its own."""

    name = "host"

    def __init__(self, edited=()):
        self.words = building.for_host(edited)
        self.setting = dict(os.environ, WDM_NO_TRAP="1", WDM_TRANSCRIPT="/dev/null")

    def start(self, words):
        """Returns what the player wrote, as far as it came."""
        try:
            return subprocess.run(words, env=self.setting, check=False, stdin=subprocess.DEVNULL, stdout=subprocess.PIPE,
                                  stderr=subprocess.DEVNULL, timeout=SECONDS).stdout
        except subprocess.TimeoutExpired as late:
            return late.stdout or b""

    def play(self, feeds, threads=ONE_THREAD):
        """Plays the scripts in as few processes as can be. Returns their records, None where nothing came back."""
        records, first = {}, 0
        with tempfile.NamedTemporaryFile(suffix=".feed") as it:
            it.write(b"".join(feeds))
            it.flush()
            while first < len(feeds):
                found = read_answers(self.start([*self.words, it.name, str(first), threads]))
                records.update(found)
                first = max(found, default=first) + 1
        return [records.get(k) for k in range(len(feeds))]

    def end(self):
        """Ends what was started."""


class Wine(Manager):
    """Wine's ntoskrnl.exe, with a folder of its own for all that it writes."""

    name = "wine"

    def __init__(self, room):
        found = next((it for it in ("wine64", "/usr/lib/wine/wine64", "wine") if shutil.which(it)), None)
        if not found:
            raise Missing("Wine is missing (Debian: apt-get install wine64)")
        try:
            self.words = [shutil.which(found), building.for_wine()]
        except building.Failed as why:
            raise Missing(str(why)) from why
        self.setting = dict(os.environ, WINEPREFIX=room + "/wine", WINEDEBUG="-all", DISPLAY="")

    def end(self):
        """Ends Wine's own server, of this folder alone."""
        for name in ("wineserver", "/usr/lib/wine/wineserver64", "/usr/lib/wine/wineserver"):
            if shutil.which(name):
                subprocess.run([shutil.which(name), "-k"], env=self.setting, check=False, stderr=subprocess.DEVNULL)
                return


def manager(name, room):
    return Wine(room) if name == "wine" else Manager()


def tell(text):
    print(text, file=sys.stderr, flush=True)
