"""How every command begins and ends: statuses, one line for what goes wrong, no traceback for what isn't a bug."""

from __future__ import annotations

import errno
import os
import signal
import sys
from types import FrameType
from typing import NoReturn

import click

from catchup import __version__
from catchup.errors import CatchupError, Failure, WrongWords, how_to_get, is_short

INTERRUPTED = 130
CLOSED_PIPE = 141
# By a signal: 128 and its number.
_SIGNALLED = 128
# Seconds until an ending that Python passed over comes again.
_AGAIN = 0.05
# What a write fails with, which names no file.
_UNWRITTEN = (errno.ENOSPC, errno.EDQUOT, errno.EFBIG, errno.EIO)


def run(command: click.Command, name: str, *, serves: bool = False) -> NoReturn:
    """Runs a click command as a program that is called `name`.

    Wrong words are status 2, a Failure its own status (1), a module that isn't installed or can't be loaded 1, an
    interrupt 130, a request to terminate 143, a terminal that is closed 129 (all three let the command clean up), a closed
    pipe 141 without a word. Each but the last four has one line on standard error. One that `serves` needs no standard
    output, and sees to the closing of a terminal itself.
    """
    if sys.stderr is None and not serves:
        sys.stderr = open(os.devnull, "w")
    if sys.stdout is None and not serves:
        sys.exit(_said(name, "standard output is closed", 1))
    sys.unraisablehook = _end_again
    for number in (signal.SIGTERM,) if serves else (signal.SIGTERM, signal.SIGHUP):
        if signal.getsignal(number) is signal.SIG_DFL:
            signal.signal(number, _terminate)
    status = _status_of(with_version(command, name), name)
    # What is done needs no ending any more.
    signal.setitimer(signal.ITIMER_REAL, 0)
    sys.exit(status)


def with_version(command: click.Command, name: str) -> click.Command:
    """The command with an option that prints its version, as `name 0.2.0`; once, however often it is asked for."""
    if not any(each.name == "version" for each in command.params):
        click.version_option(__version__, prog_name=name, message="%(prog)s %(version)s")(command)
    return command


def _status_of(command: click.Command, name: str) -> int:
    context: click.Context | None = None
    try:
        # Up to here bin/ has an interrupt end the process at once: while modules load Python would print a traceback.
        if signal.getsignal(signal.SIGINT) is signal.SIG_DFL:
            signal.signal(signal.SIGINT, signal.default_int_handler)
        # Not by `main`, which answers a closed pipe and an interrupt in ways of its own.
        with command.make_context(name, sys.argv[1:]) as context:
            result = command.invoke(context)
        sys.stdout.flush()
    except click.exceptions.Exit as end:
        return end.exit_code
    except click.UsageError as error:
        told = _one_line(error.format_message()).rstrip(".")
        return _said(name, f"{told}.{_wanted(error)} See: {_asked(name, context, error)} --help", WrongWords.status)
    except click.ClickException as error:
        return _said(name, _one_line(error.format_message()), error.exit_code)
    except Failure as error:
        return _said(name, _one_line(str(error)), error.status)
    except CatchupError as error:
        return _said(name, _one_line(str(error)), 1)
    except (KeyboardInterrupt, click.Abort):
        return INTERRUPTED
    except BrokenPipeError:
        _leave_output()
        return CLOSED_PIPE
    except OSError as error:
        _leave_output()
        return _said(name, _one_line(_told(error)), 1)
    except (MemoryError, ImportError, RuntimeError, SystemError) as error:
        return _said(name, _one_line(_unmade(error)), 1)
    return result if isinstance(result, int) else 0


def _asked(name: str, context: click.Context | None, error: click.UsageError) -> str:
    """The command whose help has what is wrong: one of another's commands, as `catchup-import osm`, has a help of its own."""
    if error.ctx:
        return error.ctx.command_path
    # Of an option without its value click tells no context.
    return f"{name} {context.invoked_subcommand}" if context and context.invoked_subcommand else name


def _wanted(error: click.UsageError) -> str:
    """What to write where an argument is missing, or there is one too many."""
    one_is_wrong = isinstance(error, (click.NoSuchOption, click.BadOptionUsage, click.BadParameter))
    if error.ctx is None or one_is_wrong and not isinstance(error, click.MissingParameter):
        return ""
    command = error.ctx.command
    if isinstance(command, click.MultiCommand):
        return f" Write: {error.ctx.command_path} {'|'.join(command.list_commands(error.ctx))} .."
    return f" Write: {_one_line(error.ctx.get_usage()).partition(': ')[2]}."


class _Terminated(SystemExit):
    """What a signal that asks to end raises."""

    def __init__(self, number: int) -> None:
        super().__init__(_SIGNALLED + number)
        self.number = number


def _terminate(number: int, frame: FrameType | None) -> None:
    # One that was to come again would come while this one cleans up.
    signal.setitimer(signal.ITIMER_REAL, 0)
    raise _Terminated(number)


def _end_again(told: sys.UnraisableHookArgs) -> None:
    """An ending that came within what has nobody to raise to, as the end of an object, would be passed over and the work go
    on: it comes again in a moment, until it reaches the work."""
    ending = told.exc_value
    if not isinstance(ending, (KeyboardInterrupt, _Terminated)):
        sys.__unraisablehook__(told)
        return
    number = signal.SIGINT if isinstance(ending, KeyboardInterrupt) else ending.number
    signal.signal(signal.SIGALRM, lambda *_: signal.raise_signal(number))
    signal.setitimer(signal.ITIMER_REAL, _AGAIN)


def _unmade(error: MemoryError | ImportError | RuntimeError | SystemError) -> str:
    """Whether memory is short, no thread can be started, or a module of others isn't there. Raises all else, which is our own
    fault."""
    if str(error) == "can't start new thread":
        return "no thread can be started: free some memory, or allow more processes (ulimit -u)"
    if is_short(error):
        return "out of memory: free some, allow it more (ulimit -v), or give it a smaller input"
    if isinstance(error, ImportError):
        return _unloaded(error)
    raise error


def _unloaded(error: ImportError) -> str:
    """Which module of others isn't installed, or can't be loaded, as where a library of it finds no memory. Raises what is
    our own fault, as a name that a module of this package doesn't have."""
    # As numpy's, which names no module and tells at length what may be wrong.
    while error.name is None and isinstance(earlier := error.__cause__ or error.__context__, ImportError):
        error = earlier
    module = (error.name or "").partition(".")[0]
    if module in ("", "catchup"):
        raise error
    if not isinstance(error, ModuleNotFoundError):
        return f"the Python module {module} can't be loaded: {error}"
    return f"the Python module {module} isn't installed: {how_to_get(module)}"


def _told(error: OSError) -> str:
    """What failed, and why."""
    if error.filename is not None:
        return f"{os.fsdecode(error.filename)}: {error.strerror}"
    if error.errno == errno.ENOENT and not _has_folder():
        return "the folder that it was called in is no longer there: go to another one"
    return f"its output can't be written: {error.strerror}" if error.errno in _UNWRITTEN else str(error)


def _has_folder() -> bool:
    try:
        os.getcwd()
    except FileNotFoundError:
        return False
    return True


def _said(name: str, text: str, status: int) -> int:
    # Where standard error is closed Python would print on standard output.
    if sys.stderr is not None:
        print(f"{name}: {text}", file=sys.stderr)
    return status


def _one_line(text: str) -> str:
    return " ".join(text.split())


def _leave_output() -> None:
    """What is still kept for an output that failed must not fail again when Python ends."""
    nowhere = os.open(os.devnull, os.O_WRONLY)
    os.dup2(nowhere, sys.stdout.fileno())
    os.close(nowhere)
