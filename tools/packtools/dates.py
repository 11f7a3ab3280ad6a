"""Dates on packs, which are seconds since the start of 1901, and those of the host, which are seconds since that of 1970."""
import datetime

# seconds from the start of 1901 to that of 1970, and the number of moments that two words tell
EPOCH, MOMENTS = 2_177_452_800, 2**32


def day(moment):
    """A date on a pack as this host's clock has it, or `never` for 0, as a pack that was made by hand may have it."""
    if moment == 0:
        return "never"
    at = datetime.datetime(1970, 1, 1, tzinfo=datetime.timezone.utc) + datetime.timedelta(seconds=moment - EPOCH)
    return at.astimezone().strftime("%Y-%m-%d %H:%M:%S")


def moment_of(seconds):
    """The date on a pack for a host's, in whole seconds, or None if two words don't tell it."""
    moment = int(seconds // 1) + EPOCH
    return moment if 0 <= moment < MOMENTS else None


def seconds_of(moment):
    """The host's date for one on a pack."""
    return moment - EPOCH
