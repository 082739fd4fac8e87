"""What the scripts of this folder share: the words of their lines, the heading of a table, and one line in place of a traceback."""
import argparse
import os
import platform
import statistics
import subprocess
import sys
import time

ROOT = os.path.dirname(os.path.dirname(os.path.realpath(__file__)))


class Words(argparse.ArgumentParser):
    """A parser that answers a wrong line with one line and status 2."""

    def error(self, message):
        self.exit(2, f"{self.prog}: {message}; {self.prog} --help tells the words\n")


def positive(word):
    number = int(word)
    if number < 1:
        raise ValueError
    return number


positive.__name__ = "positive number"


def heading(runs):
    """When and on what the rows below were measured."""
    try:
        with open("/proc/cpuinfo") as info:
            cpu = next(line.split(":")[1].strip() for line in info if line.startswith("model name"))
    except (OSError, StopIteration):
        cpu = platform.machine()
    return f"{time.strftime('%Y-%m-%d')}, {cpu}, {os.cpu_count()} processors, load {os.getloadavg()[0]:.1f}, {runs} runs"


def best_and_median(results):
    return min(results), statistics.median(results)


def call(main):
    """Runs a script, and ends it with one line where something that it needs isn't there or fails."""
    name = os.path.basename(sys.argv[0])
    try:
        main()
    except subprocess.CalledProcessError as error:
        sys.exit(f"{name}: {' '.join(map(str, error.cmd))}: status {error.returncode}")
    except OSError as error:
        sys.exit(f"{name}: {error.filename + ': ' if error.filename else ''}{error.strerror}")
    except KeyboardInterrupt:
        sys.exit(130)
