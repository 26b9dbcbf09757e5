"""What Windows does where a driver can tell, and the host does too (windows/): each file right, and made wrong, as newer.py has
it."""

import os

import newer

HERE = os.path.dirname(os.path.abspath(__file__))


def files():
    """Returns the paths of all files, below this folder."""
    return [f"windows/{it}" for it in sorted(os.listdir(HERE + "/windows")) if it.endswith(".c")]


def rules():
    """Returns the rules that the mistakes of these files break."""
    return {rule for path in files() for (_, _, rule), _ in newer.mistakes_in(path)}


def tests(bench):
    """Returns the tests: of each a name, and a call that gives names and complaints."""
    return [(f"as Windows {it}", lambda it=it: newer.whole(bench, it, "as Windows")) for it in files()]
