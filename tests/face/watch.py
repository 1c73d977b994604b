"""What a shell cannot see of a program, or do to it. Usage: watch.py WHAT .. COMMAND ..

memory KEY,KEY.. COMMAND   runs it and looks at its memory when it ends: status 100 where one of the keys (hex digits)
                           is still there, else the command's own; SIGTERM is passed on to it
waiting KEY,KEY.. COMMAND  the same of a command whose output nobody reads: it is ended by SIGUSR1 when it waits
cut N COMMAND              runs it and ends it with SIGKILL before the Nth thing that it asks of the system once it has
                           its lock: status 137, or the command's own where it ends earlier
core COMMAND               starts it, which has to wait for input, and ends it with SIGSEGV: status 1 where it may write
                           a core dump, or has
terminal HOW COMMAND       runs it at a terminal and prints what the terminal showed; types the lines of standard input,
                           each when it is asked for. HOW is `plain`, `locked` (the terminal shows what is typed,
                           whatever is set), `orphaned` (it cannot be set by this program), or `interrupt` (Ctrl-C is
                           typed in place of a line). Status 100 where it does not show what is typed afterwards
nobody COMMAND             runs it without any rights, if we have any to give up

What the kernel does not let us try is not tried: `memory`, `waiting` and `cut` need ptrace, without which the command
just runs; `locked` needs rights of the system, without which it is `orphaned`.
"""
import ctypes
import fcntl
import os
import platform
import pty
import resource
import select
import signal
import struct
import sys
import termios
import threading
import time

libc = ctypes.CDLL(None, use_errno=True)
libc.ptrace.argtypes = [ctypes.c_long, ctypes.c_long, ctypes.c_void_p, ctypes.c_void_p]
TRACEME, CONT, TO_CALL, SETOPTIONS, CALL_INFO = 0, 7, 24, 0x4200, 0x420E
MARKED_CALLS, ON_EXEC, ON_EXIT, KILLED_WITH_US = 1, 1 << 4, 1 << 6, 1 << 20
EXEC, EXIT, CALL = 4, 6, signal.SIGTRAP | 0x80
FLOCK = {"x86_64": 73, "aarch64": 32}
LOCK_TERMINAL, SET_SUBREAPER, NOBODY = 0x5457, 36, 65534


def as_shell(status):
    return os.WEXITSTATUS(status) if os.WIFEXITED(status) else 128 + os.WTERMSIG(status)


# ---- tracing


def trace(command, options, going_on, stopped, begun=lambda child: None):
    """Runs a command; `begun` is called with its number, and `stopped` whenever it stops, which gives the signal to go
    on with. Gives the command's status."""
    child = os.fork()
    if child == 0:
        if libc.ptrace(TRACEME, 0, None, None) == 0:
            os.kill(os.getpid(), signal.SIGSTOP)
        os.execv(command[0], command)
    begun(child)
    status = os.waitpid(child, os.WUNTRACED)[1]
    signal.signal(signal.SIGTERM, lambda number, frame: os.kill(child, number))
    libc.ptrace(SETOPTIONS, child, None, options | KILLED_WITH_US)
    sent = 0
    while os.WIFSTOPPED(status):
        libc.ptrace(going_on, child, None, sent)
        status = os.waitpid(child, 0)[1]
        if os.WIFSTOPPED(status):
            sent = stopped(child, status >> 16, os.WSTOPSIG(status))
    return as_shell(status)


def call_of(child):
    """The number of the call that a program is about to make; none where it comes back from one."""
    info = ctypes.create_string_buffer(88)
    libc.ptrace(CALL_INFO, child, len(info), info)
    begins, number = struct.unpack_from("B23xQ", info)
    return number if begins == 1 else None


def cut(number, command):
    calls = None

    def stopped(child, event, stop):
        nonlocal calls
        call = call_of(child) if stop == CALL else None
        if call == FLOCK[platform.machine()]:
            calls = 0
        elif call is not None and calls is not None:
            calls += 1
            if calls == number:
                os.kill(child, signal.SIGKILL)
        return 0 if event or stop == CALL else stop

    return trace(command, ON_EXEC | MARKED_CALLS, TO_CALL, stopped)


# ---- memory


def patterns(key):
    raw = bytes.fromhex(key)
    return [raw, raw[::-1], key.upper().encode(), key.lower().encode()]


def open_memory(child):
    """The memory of a program and its map, opened when it begins: later it lets nobody look."""
    try:
        return open(f"/proc/{child}/mem", "rb", 0), open(f"/proc/{child}/maps"), os.readlink(f"/proc/{child}/exe")
    except OSError:
        return None


def parts(memory_file, maps, program):
    """The memory part by part, without code; of an emulator not its own, which has the words of the command line."""
    emulated = os.path.basename(program).startswith("qemu")
    for line in maps.read().splitlines():
        fields = line.split(None, 5)
        name = fields[5] if len(fields) > 5 else ""
        if fields[1][0] != "r" or fields[1][2] == "x" or name.startswith("[v"):
            continue
        if emulated and name in ("[heap]", "[stack]"):
            continue
        start, end = (int(place, 16) for place in fields[0].split("-"))
        memory_file.seek(start)
        try:
            yield memory_file.read(end - start)
        except OSError:
            pass


def look(opened, keys):
    """Whether a key is there, or what has to be there is not."""
    searched = [pattern for key in keys for pattern in patterns(key)]
    found, ours = False, False
    for part in parts(*opened):
        ours = ours or b"usage: line COMMAND" in part
        found = found or any(pattern in part for pattern in searched)
    return found or not ours


def memory(keys, command, begun=lambda child: None):
    opened, left = None, False

    def stopped(child, event, stop):
        nonlocal opened, left
        if event == EXEC:
            opened = open_memory(child)
        elif event == EXIT:
            left = opened is not None and look(opened, keys.split(","))
        return 0 if event else stop

    status = trace(command, ON_EXEC | ON_EXIT, CONT, stopped, begun)
    return 100 if left else status


def full_pipe():
    source, sink = os.pipe()
    os.set_blocking(sink, False)
    try:
        while os.write(sink, bytes(1)):
            pass
    except BlockingIOError:
        os.set_blocking(sink, True)
    return source, sink


def state_of(process):
    """Whether it sleeps, and the time that it has had."""
    with open(f"/proc/{process}/stat") as file:
        fields = file.read().rpartition(")")[2].split()
    return fields[0], fields[11:13]


def end_when_waiting(process):
    """Ends a process as soon as it has slept for a second."""
    slept, before = 0, None
    try:
        while slept < 10:
            time.sleep(0.1)
            state = state_of(process)
            slept = slept + 1 if state[0] == "S" and state == before else 0
            before = state
        os.kill(process, signal.SIGUSR1)
    except OSError:
        pass


def waiting(keys, command):
    source, sink = full_pipe()
    os.dup2(sink, 1)
    return memory(keys, command, lambda child: threading.Thread(target=end_when_waiting, args=(child,)).start())


# ---- core dumps


def nobody(command):
    if os.geteuid() == 0:
        os.setgroups([])
        os.setgid(NOBODY)
        os.setuid(NOBODY)
    os.execv(command[0], command)


def core(command):
    """A program that lets nobody look at it belongs to root, whoever started it."""
    source, sink = os.pipe()
    hard = resource.getrlimit(resource.RLIMIT_CORE)[1]
    before = set(os.listdir())
    child = os.fork()
    if child == 0:
        os.dup2(source, 0)
        os.close(sink)
        resource.setrlimit(resource.RLIMIT_CORE, (hard, hard))
        nobody(command)
    forbidden = False
    for _ in range(100):
        time.sleep(0.05)
        with open(f"/proc/{child}/limits") as file:
            limits = file.read().split("Max core file size")[1].split()[:2]
        forbidden = limits == ["0", "0"] and os.stat(f"/proc/{child}/environ").st_uid == 0
        if forbidden:
            break
    os.kill(child, signal.SIGSEGV)
    os.waitpid(child, 0)
    return 0 if forbidden and set(os.listdir()) == before else 1


# ---- terminals


def shows(terminal_file):
    return termios.tcgetattr(terminal_file)[3] & termios.ECHO != 0


def lock_echo(terminal_file):
    """Holds a terminal to showing what is typed."""
    try:
        fcntl.ioctl(terminal_file, LOCK_TERMINAL, struct.pack("4I20x", 0, 0, 0, termios.ECHO))
        return True
    except OSError:
        return False


def own(terminal_file):
    # a program that was started in the background would ignore Ctrl-C
    signal.signal(signal.SIGINT, signal.SIG_DFL)
    os.setsid()
    fcntl.ioctl(terminal_file, termios.TIOCSCTTY, 0)


def join(terminal_file, command):
    for stream in range(3):
        os.dup2(terminal_file, stream)
    os.execv(command[0], command)


def start(terminal_file, command):
    child = os.fork()
    if child == 0:
        own(terminal_file)
        join(terminal_file, command)
    return child


def start_orphaned(terminal_file, command):
    """Starts a command in a group whose parent ends, so that the kernel lets it neither set nor read the terminal."""
    told, tell = os.pipe()
    libc.prctl(SET_SUBREAPER, 1, 0, 0, 0)
    leader = os.fork()
    if leader == 0:
        own(terminal_file)
        if os.fork() == 0:
            parent = os.getpid()
            child = os.fork()
            if child == 0:
                os.setpgid(0, 0)
                while os.getppid() == parent:
                    time.sleep(0.01)
                join(terminal_file, command)
            os.write(tell, b"%d\n" % child)
            os._exit(0)
        os.wait()
        time.sleep(60)
        os._exit(0)
    return leader, int(os.read(told, 20))


def converse(master, child, lines):
    """What the terminal shows until the program has ended, or has not for long; lines are typed when a component is
    asked for."""
    shown, until = b"", time.monotonic() + 60
    while True:
        if select.select([master], [], [], 0.1)[0]:
            shown += os.read(master, 1000)
            if shown.endswith((b" component: ", b" key: ")) and lines:
                os.write(master, lines.pop(0))
            continue
        if time.monotonic() > until:
            os.kill(child, signal.SIGKILL)
        ended, status = os.waitpid(child, os.WNOHANG)
        if ended:
            return shown, status


def terminal(how, command):
    typed = [b"\x03"] if how == "interrupt" else [line.encode() for line in sys.stdin]
    master, slave = pty.openpty()
    leader = None
    if how == "orphaned" or (how == "locked" and not lock_echo(slave)):
        leader, child = start_orphaned(slave, command)
    else:
        child = start(slave, command)
    shown, status = converse(master, child, typed)
    sys.stdout.write(shown.decode().replace("\r", ""))
    if leader is not None:
        os.kill(leader, signal.SIGKILL)
    return as_shell(status) if shows(slave) else 100


def main(words):
    if len(words) > 2 and words[0] == "memory":
        return memory(words[1], words[2:])
    if len(words) > 2 and words[0] == "waiting":
        return waiting(words[1], words[2:])
    if len(words) > 2 and words[0] == "cut":
        return cut(int(words[1]), words[2:])
    if len(words) > 1 and words[0] == "core":
        return core(words[1:])
    if len(words) > 2 and words[0] == "terminal":
        return terminal(words[1], words[2:])
    if len(words) > 1 and words[0] == "nobody":
        return nobody(words[1:])
    print(__doc__, file=sys.stderr)
    return 2


if __name__ == "__main__":
    sys.exit(main(sys.argv[1:]))
