"""Imported first by each script: ^C while the other modules are read ends it without a traceback, by the signal, which a shell tells as
130."""
import signal

# what a shell starts in the background may ignore it
IS_DEFAULT = signal.getsignal(signal.SIGINT) is signal.default_int_handler
if IS_DEFAULT:
    signal.signal(signal.SIGINT, signal.SIG_DFL)


def catch():
    """From here on ^C raises `KeyboardInterrupt`, which the script deals with."""
    if IS_DEFAULT:
        signal.signal(signal.SIGINT, signal.default_int_handler)
