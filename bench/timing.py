"""What the scripts of bench/ measure with: the times of whole processes and of replies, and the memory of a process that runs."""
import collections
import os
import pathlib
import platform
import resource
import shutil
import subprocess
import threading
import time

# KiB of a page of memory
PAGE_KIB = os.sysconf("SC_PAGESIZE") // 1024

Time = collections.namedtuple("Time", "seconds processor")


def machine():
    cpu = [line.split(":")[1].strip() for line in open("/proc/cpuinfo") if line.startswith("model name")]
    return f"{cpu[0] if cpu else platform.machine()}, {os.cpu_count()} processors, Linux {platform.release()}"


def used():
    """The seconds of the processor of all processes that were started here and have ended."""
    usage = resource.getrusage(resource.RUSAGE_CHILDREN)
    return usage.ru_utime + usage.ru_stime


def timed(command, codes=(0,), **streams):
    """The time of a whole process with these streams, and what it wrote to its standard output if that is a pipe. It ends with one of these
    codes."""
    before, start = used(), time.perf_counter()
    done = subprocess.run(command, **streams)
    time_taken = Time(time.perf_counter() - start, used() - before)
    assert done.returncode in codes, f"{command[0]} ends with {done.returncode}"
    return time_taken, done.stdout


def calls(run, counts):
    """How many system calls of each name a process makes: `run` is given the words ahead of its command, which count them into this file.
    None where there is no strace."""
    if shutil.which("strace") is None:
        return None
    run(["strace", "-f", "-c", "-U", "calls,name", "-o", counts])
    found = (line.split() for line in counts.read_text().splitlines())
    return collections.Counter({words[1]: int(words[0]) for words in found if len(words) == 2 and words[0].isdigit() and words[1] != "total"})


def most_memory(process):
    """The most memory that a running process has had, in KiB. None where it can't be measured.

    What getrusage tells after its end is no less than what this process had as it started the other one.
    """
    status = pathlib.Path(f"/proc/{process.pid}/status").read_text()
    return next((int(line.split()[1]) for line in status.splitlines() if line.startswith("VmHWM")), None)


def write_all(process, typed):
    """Writes typed lines, and waits wherever the program is late with them."""
    process.stdin.write(typed)
    process.stdin.flush()


def answered(process, typed, replies):
    """The seconds until these lines have these replies. They are written while replies are read, so neither pipe stays full."""
    writer = threading.Thread(target=write_all, args=(process, typed), daemon=True)
    start = time.perf_counter()
    writer.start()
    shown = process.stdout.read(len(replies))
    seconds = time.perf_counter() - start
    assert shown == replies, "each line is answered"
    writer.join()
    return seconds
