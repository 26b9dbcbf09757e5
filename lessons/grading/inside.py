"""Runs a command and watches it: `inside.py ROOM SECONDS MEMORY PROCESSES FILES PROGRAMS WORD ..`.

Where PROGRAMS isn't -, this is process 1 of new namespaces: it makes a root in which the system, the repository and these
programs (their paths, with : between them) can be read alone, and /tmp has what ROOM has. The command runs without privileges.
SECONDS are of the processor, whatever else runs; on the clock there is an hour. This ends with the command's status, or with
100, 101 or 102 where time, processes or memory are used up, and then with all that the command started."""

import ctypes
import os
import resource
import signal
import subprocess
import sys
import time

TIME, PROCESSES, MEMORY = 100, 101, 102
MEGABYTE, PAUSE, MOST_FILES = 1 << 20, 0.1, 20000
TOP = os.path.dirname(os.path.dirname(os.path.dirname(os.path.abspath(__file__))))
SYSTEM = ("/usr", "/bin", "/sbin", "/lib", "/lib32", "/lib64", "/etc", "/opt")
DEVICES = ("/dev/null", "/dev/zero", "/dev/full", "/dev/random", "/dev/urandom")
NOBODY = 65100  # a user that no system has, for who grades as root
PAGE, TICKS, CLOCK = os.sysconf("SC_PAGE_SIZE"), os.sysconf("SC_CLK_TCK"), 3600
KEPT_FLAGS = {os.ST_NOSUID: "nosuid", os.ST_NODEV: "nodev", os.ST_NOEXEC: "noexec"}
SUBREAPER = 36  # PR_SET_CHILD_SUBREAPER
BEHIND = 10  # how much nicer the command is


def mount(*words):
    subprocess.run(["mount", *words], check=True, stdout=subprocess.DEVNULL)


def show(path, root, is_device=False):
    """Puts a file or a folder of the system into the new root, to be read alone."""
    place = root + path
    os.makedirs(place if os.path.isdir(path) else os.path.dirname(place), exist_ok=True)
    if not os.path.isdir(path):
        with open(place, "x", encoding="utf-8"):
            pass
    mount("--rbind", path, place)
    if not is_device:
        flags = os.statvfs(place).f_flag
        mount("-o", ",".join(["remount", "bind", "ro", *(name for bit, name in KEPT_FLAGS.items() if flags & bit)]), place)


def enter(room, programs, megabytes):
    """Makes the new root, and goes there."""
    root = room + "/root"
    os.makedirs(root)
    mount("-t", "tmpfs", "-o", "mode=755,size=1m", "none", root)
    for it in ("/tmp", "/proc"):
        os.makedirs(root + it)
    mount("-t", "proc", "proc", root + "/proc")
    mount("-t", "tmpfs", "-o", f"mode=1777,nosuid,nodev,size={megabytes}m,nr_inodes={MOST_FILES}", "none", root + "/tmp")
    subprocess.run(["cp", "-r", "--preserve=mode,timestamps", room + "/files/.", root + "/tmp"], check=True)
    give(root + "/tmp")
    for it in SYSTEM:
        if os.path.islink(it):
            os.symlink(os.readlink(it), root + it)
        elif os.path.isdir(it):
            show(it, root)
    for it in (TOP, os.path.realpath(TOP + "/lessons"), sys.base_prefix, *programs):
        if not os.path.exists(root + it):
            show(it, root)
    for it in DEVICES:
        show(it, root, True)
    os.chroot(root)


def give(folder):
    """Gives a folder to the user that the command runs as, where this is root."""
    if is_outer_root():
        subprocess.run(["chown", "-R", f"{NOBODY}:{NOBODY}", folder], check=True)


def below():
    """Returns the processes that this one started, and those that they did, each with its pages in memory and its ticks."""
    found, parents = {}, {}
    for it in filter(str.isdigit, os.listdir("/proc")):
        try:
            with open(f"/proc/{it}/stat", encoding="utf-8", errors="replace") as about:
                words = about.read().rpartition(")")[2].split()
        except OSError:
            continue
        parents.setdefault(int(words[1]), []).append(int(it))
        found[int(it)] = (0 if words[0] == "Z" else int(words[21]), sum(map(int, words[11:15])))
    reached = [os.getpid()]
    for it in reached:  # which grows meanwhile
        reached += parents.get(it, [])
    return {it: found[it] for it in reached[1:]}


def threads_of(user):
    """Returns how many threads a user has: the system counts these for the limit of processes."""
    count = 0
    for it in filter(str.isdigit, os.listdir("/proc")):
        try:
            count += len(os.listdir(f"/proc/{it}/task")) if os.stat(f"/proc/{it}").st_uid == user else 0
        except OSError:
            continue
    return count


def limited(limits, threads):
    """Sets what the system limits for each process of the command, whose user has so many threads already. They all run behind
    this one, which has to come to its turn to end them."""
    seconds, _, processes, files = limits
    os.nice(BEHIND)
    for kind, most in ((resource.RLIMIT_CPU, 2 * seconds), (resource.RLIMIT_NPROC, 2 * processes + threads),
                       (resource.RLIMIT_FSIZE, files * MEGABYTE), (resource.RLIMIT_NOFILE, 1024), (resource.RLIMIT_CORE, 0)):
        hard = resource.getrlimit(kind)[1]
        most = most if hard == resource.RLIM_INFINITY else min(most, hard)
        resource.setrlimit(kind, (most, most))


def go_first():
    """Lets this process run before the command, however many processes that has. Only root may; the command goes behind, too."""
    try:
        os.setpriority(os.PRIO_PROCESS, 0, -10)
    except PermissionError:
        pass


def unprivileged(words):
    """Returns the command line that runs a command without privileges."""
    if os.geteuid() != 0:
        return words
    who = ["--reuid", str(NOBODY), "--regid", str(NOBODY), "--clear-groups"] if is_outer_root() else []
    return ["setpriv", "--no-new-privs", "--inh-caps=-all", "--ambient-caps=-all", "--bounding-set=-all", *who, "--", *words]


def is_outer_root():
    """Whether this is root also outside of its namespace."""
    with open("/proc/self/uid_map", encoding="utf-8") as it:
        return os.geteuid() == 0 and it.read().split()[:2] == ["0", "0"]


def passed(its, ends, limits):
    """Returns which limit the command's processes have passed, or None."""
    seconds, memory, processes, _ = limits
    of_ended = resource.getrusage(resource.RUSAGE_CHILDREN)
    used = of_ended.ru_utime + of_ended.ru_stime + sum(ticks for _, ticks in its.values()) / TICKS
    if used > seconds or time.monotonic() > ends:
        return TIME
    if len(its) >= processes:
        return PROCESSES
    return MEMORY if sum(pages for pages, _ in its.values()) * PAGE > memory * MEGABYTE else None


def watched(child, limits):
    """Waits until the command ends, or has passed a limit. Returns this process's exit status."""
    ends = time.monotonic() + CLOCK
    while True:
        done, status = os.waitpid(-1, os.WNOHANG)
        if done == child:
            return os.waitstatus_to_exitcode(status) & 0xFF
        if done:
            continue
        limit = passed(below(), ends, limits)
        if limit is not None:
            return limit
        time.sleep(PAUSE)


def end_all():
    """Ends what the command started, and what that goes on to start."""
    while its := below():
        for number in (signal.SIGSTOP, signal.SIGKILL):
            for it in its:
                try:
                    os.kill(it, number)
                except ProcessLookupError:
                    pass
        try:
            while os.waitpid(-1, os.WNOHANG)[0]:
                pass
        except ChildProcessError:
            return


def main():
    room, limits, programs, words = sys.argv[1], tuple(map(int, sys.argv[2:6])), sys.argv[6], sys.argv[7:]
    folder = room + "/files"
    if programs == "-":
        ctypes.CDLL(None).prctl(SUBREAPER, 1)
        give(room)
    else:
        enter(room, [it for it in programs.split(":") if it], limits[3])
        folder = "/tmp"
    os.chdir(folder)
    home = dict(os.environ, HOME=folder, TMPDIR=folder, XDG_CACHE_HOME=folder + "/cache",
                PATH=f"{os.path.dirname(sys.executable)}:{os.environ.get('PATH', os.defpath)}")
    threads = threads_of(NOBODY if is_outer_root() else os.geteuid())
    with subprocess.Popen(unprivileged(words), env=home, preexec_fn=lambda: limited(limits, threads)) as made:
        go_first()
        status = watched(made.pid, limits)
        end_all()
        os._exit(status)


if __name__ == "__main__":
    main()
