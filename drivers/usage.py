"""How every script in Python takes its words and ends: the same message and status for words that it doesn't take, and no
traceback where a file or a pipe fails, or somebody interrupts it."""

import argparse
import os
import re
import signal
import sys

USAGE, FAILED, INTERRUPTED = 4, 5, 130


class Words(argparse.ArgumentParser):
    """Takes the words of a command line. Where it doesn't take one, it names it and what is wanted, and ends with status 4."""

    def __init__(self, **more):
        super().__init__(**{"allow_abbrev": False, "formatter_class": argparse.RawDescriptionHelpFormatter, **more,
                            "add_help": False})
        self.add_argument("-h", "--help", action="help", help="print this")

    def flags(self):
        """Returns the flags that there are, such as --threads."""
        return [it for it in self._option_string_actions if it.startswith("--")]

    def error(self, message):
        self.exit(USAGE, f"{self.prog}: {told(message, self.flags())}; {self.prog} --help tells more\n")


def told(message, flags):
    """Returns what argparse says of a word, with the word before what is wanted."""
    unknown = re.fullmatch(r"unrecognized arguments: (\S+).*", message, re.DOTALL)
    if unknown:
        return f"{unknown[1]}: {unknown_word(unknown[1], flags) if unknown[1][:1] == '-' else 'this word is one too many'}"
    missing = re.fullmatch(r"the following arguments are required: (.*)", message)
    if missing:
        return f"{missing[1]} is missing"
    found = re.fullmatch(r"argument (?:-\w/)?(\S+): (.*)", message, re.DOTALL)
    return told_of(found[1], found[2]) if found else message


def told_of(flag, message):
    """Returns what argparse says of a flag, or of a word that has a place."""
    before = f"{flag} " if flag.startswith("-") else ""
    choice = re.fullmatch(r"invalid choice: '?(.*?)'? \(choose from (.*)\)", message)
    if choice:
        return f"{before}{choice[1]}: one of {choice[2]} is wanted".replace("'", "")
    invalid = re.fullmatch(r"invalid (\w+) value: '(.*)'", message)
    if invalid:
        wanted = {"int": "a whole number is wanted", "float": "a number is wanted"}
        return f"{before}{invalid[2]}: {wanted.get(invalid[1], 'it is none of those that there are')}"
    lacking = re.fullmatch(r"expected (\w+) arguments?", message)
    if lacking:
        return f"{flag}: {'a value is' if lacking[1] in ('one', '1') else lacking[1] + ' values are'} wanted behind it"
    extra = re.fullmatch(r"ignored explicit argument '(.*)'", message)
    return f"{flag}={extra[1]}: it takes no value" if extra else f"{before}{message}"


def unknown_word(word, known):
    """Returns what is told of a word that nothing takes, with the nearest one that there is."""
    import difflib  # It takes long to load, and is seldom wanted.

    near = difflib.get_close_matches(word.partition("=")[0], known, 1)
    what = "there is no such flag" if word.startswith("-") else "it isn't one of the words"
    return what + (f"; did you mean {near[0]}?" if near else "")


def number(least=0, most=None):
    """Returns what takes a whole number from `least` on, up to `most` where that is given."""
    wanted = f"a whole number from {least} on" if most is None else f"a number from {least} to {most}"

    def taken(text):
        if re.fullmatch(r"[0-9]{1,18}", text) and least <= int(text) and (most is None or int(text) <= most):
            return int(text)
        raise argparse.ArgumentTypeError(f"{text}: {wanted} is wanted")

    return taken


def new_file(text):
    """Takes the name of a file to be written: its folder is there, and it is no folder itself."""
    folder = os.path.dirname(text) or "."
    if os.path.isdir(text):
        raise argparse.ArgumentTypeError(f"{text}: this is a folder")
    if not os.path.isdir(folder):
        raise argparse.ArgumentTypeError(f"{text}: there is no folder {folder}")
    if not os.access(text if os.path.exists(text) else folder, os.W_OK):
        raise argparse.ArgumentTypeError(f"{text}: this can't be written")
    return text


def counted(count, one, many=None):
    """Returns a count with its word: `1 note`, `2 notes`."""
    return f"{count} {one if int(count) == 1 else many or one + 's'}"


def ended(main, name=None):
    """Runs a script, and ends with the status that `main` returns: 5 where a file can't be read or written, or nobody reads
    what it prints, and 130 where somebody interrupts it: an interruption that came while modules were loaded has waited."""
    try:
        signal.pthread_sigmask(signal.SIG_UNBLOCK, [signal.SIGINT])
        status = main()
        sys.stdout.flush()
    except KeyboardInterrupt:
        status = INTERRUPTED
    except BrokenPipeError:
        os.dup2(os.open(os.devnull, os.O_WRONLY), 1)
        status = FAILED
    except OSError as why:
        print(f"{name or os.path.basename(sys.argv[0])}: {f'{why.filename}: ' if why.filename else ''}{why.strerror or why}", file=sys.stderr)
        status = FAILED
    sys.exit(status)
