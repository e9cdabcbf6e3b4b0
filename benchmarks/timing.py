"""How much processor time a run of the built program takes, how much memory, and what it prints."""
import os
import subprocess
import sys
import tempfile


def timed(words, folder, given=None):
    """Runs the words in a folder, with a file of it as their input where one is named: processor seconds, which other work on the machine
    hardly changes, peak memory in bytes, and what was printed, its lines joined by slashes and cut."""
    with open(os.path.join(folder, given) if given else os.devnull, 'rb') as source:
        process = subprocess.Popen(words, cwd=folder, stdin=source, stdout=subprocess.PIPE, stderr=subprocess.STDOUT)
    printed = process.stdout.read()
    _, _, usage = os.wait4(process.pid, 0)
    return usage.ru_utime + usage.ru_stime, usage.ru_maxrss * 1024, ' / '.join(printed.decode(errors='replace').strip().split('\n'))[:120]


def run(usage, measure):
    """Calls `measure` with the program that the command line names and a temporary folder; without one word there, prints the usage."""
    if len(sys.argv) != 2:
        sys.exit(usage)
    with tempfile.TemporaryDirectory() as folder:
        measure(os.path.abspath(sys.argv[1]), folder)
