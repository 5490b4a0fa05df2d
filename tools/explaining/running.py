"""Runs the program, hands on what it writes and how it ends, and explains."""
import errno
import os
import signal
import subprocess
import sys

from explaining import report
from explaining.texts import decoded, encoded

TOP = os.path.join(os.path.dirname(os.path.realpath(__file__)), '..', '..')
CANNOT_WRITE = 6
SIGNALS = (signal.SIGINT, signal.SIGTERM, signal.SIGHUP)


def built():
    """The program that this checkout has built; None if it has none."""
    program = os.path.join(TOP, 'crates', 'br_cli', 'out', 'br_cli')
    return program if os.access(program, os.X_OK) else None


def hold_closed_streams():
    """Takes the number of each standard stream that is closed, as the program itself does, so that no pipe gets it."""
    for number in (0, 1, 2):
        try:
            os.fstat(number)
        except OSError:
            # (the least free number; a write there fails as on a closed stream)
            os.open('/', os.O_RDONLY)


def answer_of(words):
    """Runs the program, and hands signals on to it; its status, below 0 after a signal, and what it wrote."""
    child = subprocess.Popen(words, stdout=subprocess.PIPE)
    for number in SIGNALS:
        signal.signal(number, lambda number, _: child.send_signal(number))
    written, _ = child.communicate()
    for number in SIGNALS:
        signal.signal(number, signal.SIG_DFL)
    return child.returncode, written


def hand_on(data):
    """Writes to standard output; why that fails, or None."""
    while data:
        try:
            data = data[os.write(1, data):]
        except OSError as error:
            return 'it is closed' if error.errno == errno.EBADF else error.strerror
    return None


def die_of(number):
    """Ends by the signal that ended the program."""
    if number not in (signal.SIGKILL, signal.SIGSTOP):
        signal.signal(number, signal.SIG_DFL)
    os.kill(os.getpid(), number)
    os._exit(128 + number)


def tell(text, asked):
    """Writes the explanation to standard error; a fault of the explaining changes nothing."""
    try:
        lines = report.explained(text, asked)
        os.write(2, encoded('\n'.join(lines) + '\n'))
    except Exception as error:
        try:
            os.write(2, encoded('br: no explanation: %r\n' % error))
        except OSError:
            pass


def run(program, words):
    """Runs the program with words and explains; doesn't return."""
    hold_closed_streams()
    try:
        status, written = answer_of([program] + words)
    except OSError as error:
        sys.exit('explain: %s' % error)
    if status < 0:
        die_of(-status)
    fault = hand_on(written)
    if fault is not None:
        status = CANNOT_WRITE
    if 1 <= status <= 7:
        tell(decoded(written), report.Asked(program, words, status, fault))
    os._exit(status)
