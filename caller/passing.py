"""Runs a program with the streams and the signals of this process, and ends as it ended."""
import errno
import os
import signal
import stat

MOST = 16777216  # bytes that an input may have
PASSED = (signal.SIGHUP, signal.SIGINT, signal.SIGQUIT, signal.SIGTERM, signal.SIGUSR1, signal.SIGUSR2)


class Input:
    """Standard input, which has to be read twice where its refusal is explained.

    A file is given to the program as it is, and read again from where it stood. Anything else is read here, as much of it as the
    program would take, and given on. The program reads all of its input before it does anything else, so this changes nothing.
    """

    def __init__(self, is_folder):
        self.begin = self.read = self.fault = None
        try:
            if is_folder:
                raise IsADirectoryError(errno.EISDIR, "")
            if stat.S_ISREG(os.fstat(0).st_mode):
                self.begin = os.lseek(0, 0, os.SEEK_CUR)
            else:
                self.read = whole(lambda left, _: os.read(0, left))
        except OSError as fault:
            self.fault = fault

    def text(self):
        """The bytes of the input, or None where they cannot be had."""
        if self.begin is None:
            return None if self.read is None else bytes(self.read)
        try:
            return bytes(whole(lambda left, done: os.pread(0, left, self.begin + done)))
        except OSError:
            return None


def whole(read):
    """What is read until there is no more, or too much. `read` gets how many bytes may still come, and how many came."""
    text = bytearray()
    while len(text) <= MOST:
        piece = read(min(MOST + 1 - len(text), 1 << 20), len(text))
        if not piece:
            break
        text += piece
    return text


def run(program, words, given):
    """Runs the program, with this input if there is one, and returns how it ended, as os.wait says it."""
    actions, writing = [], None
    if given and given.read is not None:
        reading, writing = os.pipe()
        actions = [(os.POSIX_SPAWN_DUP2, reading, 0)]
    elif given and given.fault:  # what could not be read here, cannot be read there
        actions = [(os.POSIX_SPAWN_OPEN, 0, os.devnull, os.O_WRONLY, 0)]
    before = signal.pthread_sigmask(signal.SIG_BLOCK, PASSED)
    restored = (signal.SIGPIPE, signal.SIGXFSZ)  # which Python ignores
    how = {"file_actions": actions, "setsigmask": before, "setsigdef": restored}
    child = os.posix_spawn(program, [program, *words], os.environ, **how)
    passed = [number for number in PASSED if signal.getsignal(number) != signal.SIG_IGN]
    for number in passed:
        signal.signal(number, lambda number, _: os.kill(child, number))
    signal.pthread_sigmask(signal.SIG_SETMASK, before)
    if writing is not None:
        os.close(reading)
        give(given.read, writing)
    os.waitid(os.P_PID, child, os.WEXITED | os.WNOWAIT)  # until it is waited for, its number is no other's
    for number in passed:
        signal.signal(number, signal.SIG_DFL)
    return os.waitpid(child, 0)[1]


def give(text, writing):
    """Writes all of a text into a pipe, as long as somebody reads it."""
    left = memoryview(text)
    try:
        while left:
            left = left[os.write(writing, left) :]
    except BrokenPipeError:
        pass
    os.close(writing)


def replace(program, words):
    """Runs the program in place of this process."""
    for number in (signal.SIGPIPE, signal.SIGXFSZ):
        signal.signal(number, signal.SIG_DFL)
    os.execv(program, [program, *words])


def end_by(number):
    """Ends by this signal."""
    if number not in (signal.SIGKILL, signal.SIGSTOP):
        signal.signal(number, signal.SIG_DFL)
    os.kill(os.getpid(), number)


def end_as(ended):
    """Ends with the status, or by the signal, that another process ended with."""
    if os.WIFSIGNALED(ended):
        end_by(os.WTERMSIG(ended))
    os._exit(os.WEXITSTATUS(ended))
