"""The command line of a tool, its faults and its progress."""
import argparse
import contextlib
import os
import signal
import sys


class Fault(Exception):
    """Why a tool ends, and its status."""

    def __init__(self, why, status=1):
        super().__init__(why)
        self.status = status


class WrongArguments(Fault):
    """A command line that is wrong, with the usage."""

    def __init__(self, why, usage):
        super().__init__(why, 2)
        self.usage = usage


class Missing(Fault):
    """A package that isn't installed."""

    def __init__(self, package):
        super().__init__(f"{package} isn't here; run dev/setup")


class Help(argparse.RawDescriptionHelpFormatter):
    """The form of the programs' own help: what a tool does, its usage, its arguments and its options."""

    def start_section(self, heading):
        super().start_section({"positional arguments": "Arguments", "options": "Options"}.get(heading, heading))


class ShowHelp(argparse.Action):
    """Prints the help, and ends."""

    def __call__(self, reader, *_):
        say(reader.format_help().rstrip())
        sys.exit()


class CommandLine(argparse.ArgumentParser):
    """Reads a command line. A fault has two lines: the reason, and the usage."""

    def __init__(self, name, usage, about):
        form = {"usage": argparse.SUPPRESS, "formatter_class": Help, "allow_abbrev": False, "add_help": False}
        super().__init__(prog=name, description=f"{about}\n\nUsage: {usage}", **form)
        self.usage_line = usage

    def error(self, message):
        raise WrongArguments(message, self.usage_line)


def seconds(text):
    """Returns the limit of a run: more than 0 seconds, and at most a year."""
    if not 0 < float(text) <= 366 * 86400:
        raise ValueError(text)
    return float(text)


def escaped(text):
    """Returns a text for a terminal, with escapes for control characters and for bytes that aren't UTF-8."""
    return "".join(it if it.isprintable() else it.encode("unicode_escape").decode() for it in text)


def complain(text):
    """Prints a line on standard error."""
    print(escaped(text), file=sys.stderr)


@contextlib.contextmanager
def naming(path):
    """Gives a failure of the operating system the path of what is written."""
    try:
        yield
    except OSError as fault:
        raise OSError(fault.errno, fault.strerror, path) from fault


def say(text):
    """Prints a line on standard output at once."""
    with naming("standard output"):
        print(text, flush=True)


def interrupt(*_):
    """Ends a tool by a signal; a second one doesn't disturb what the tool removes then."""
    for it in (signal.SIGHUP, signal.SIGTERM):
        signal.signal(it, signal.SIG_IGN)
    raise KeyboardInterrupt


def argument(*names, **settings):
    """Returns an argument of a tool, as argparse takes it."""
    return names, settings


def given_in(name, usage, about, arguments):
    """Reads a tool's command line. The help has the name by which the tool is called: nethrywel-NAME if it is installed."""
    if os.path.basename(sys.argv[0]) == f"nethrywel-{name}":
        usage, about = (it.replace("tools/", "nethrywel-") for it in (usage, about))
    reader = CommandLine(name, usage, about)
    for names, settings in arguments:
        reader.add_argument(*names, **settings)
    reader.add_argument("-h", "--help", action=ShowHelp, nargs=0, help="print help")
    return reader.parse_args()


def main(usage, about, work, *arguments, at_interrupt=130):
    """Runs a tool with what its command line gives, and ends with the status that it returns. A fault is printed with the tool's
    name, and so is a package of Python that isn't installed; an interrupt, a hangup and SIGTERM have a status of their own."""
    # (a stream that is closed is None)
    sys.stdout, sys.stderr = (it or open(os.devnull, "w") for it in (sys.stdout, sys.stderr))
    sys.stdout.reconfigure(errors="backslashreplace")
    name = os.path.basename(usage.split()[0])
    for it in (signal.SIGHUP, signal.SIGTERM):
        # (one that is ignored, as by nohup, stays so)
        if signal.getsignal(it) == signal.SIG_DFL:
            signal.signal(it, interrupt)
    try:
        status = work(given_in(name, usage, about, arguments)) or 0
    except (Fault, ModuleNotFoundError) as it:
        fault = it if isinstance(it, Fault) else Missing(f"python3-{it.name}")
        complain(f"{name}: {fault}")
        if isinstance(fault, WrongArguments):
            complain(f"Usage: {fault.usage}")
        status = fault.status
    except OSError as it:
        is_unread = isinstance(it, BrokenPipeError)
        if not is_unread:
            complain(": ".join([name, *map(os.fsdecode, filter(None, (it.filename, it.strerror)))]))
        # (what is left of the output isn't tried again at the end)
        os.dup2(os.open(os.devnull, os.O_WRONLY), sys.stdout.fileno())
        status = 141 if is_unread else 1
    except KeyboardInterrupt:
        status = at_interrupt
    sys.exit(status)


def progress(name):
    """Returns a line on a terminal that says for how long a tool has run and what it does now; nothing if standard error is no
    terminal."""
    from tqdm import tqdm

    return tqdm(bar_format=f"{name}: {{elapsed}}, {{desc}}", disable=None, leave=False, dynamic_ncols=True)
