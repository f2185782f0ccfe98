"""Starts the command `corewar`. The scripts of a checkout and of Debian run this file by its path, so that nothing of
the package is imported earlier.
"""
import signal
import sys

# The extra of the wheel that requires a module, if it is not the extra `cli`.
EXTRAS = {"matplotlib": "pictures"}


def missing_module(error: ModuleNotFoundError) -> str:
    """Returns the text of the error, with what to install for the missing module."""
    module = (error.name or "").partition(".")[0]
    debian, extra = f"Debian's python3-{module.replace('_', '-')}", EXTRAS.get(module, "cli")
    return f"{error}; install {debian}, or all with dev/setup, or with pip corewar[{extra}]"


def main() -> None:
    """Runs the command, or reports that it cannot be loaded."""
    # While modules are loaded, Ctrl-C ends the process without a traceback. The script that starts this file blocks the
    # signal, since Python's own start would print a traceback.
    if signal.getsignal(signal.SIGINT) is signal.default_int_handler:
        signal.signal(signal.SIGINT, signal.SIG_DFL)
    if hasattr(signal, "pthread_sigmask"):
        signal.pthread_sigmask(signal.SIG_UNBLOCK, [signal.SIGINT])
    try:
        from corewar.cli.main import main as run
    except ModuleNotFoundError as error:
        sys.exit(f"corewar: {missing_module(error)}")
    except ImportError as error:
        sys.exit(f"corewar: {error}")
    run()


if __name__ == "__main__":
    main()
