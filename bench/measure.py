"""Runs the program over a script and tells its time, its peak memory and its status."""
import os
import resource
import subprocess
import sys
import tempfile
import time

ROOT = os.path.dirname(os.path.dirname(os.path.abspath(__file__)))


def program():
    """The built program: the word of the line, or bin/abella."""
    return os.path.abspath(sys.argv[1]) if len(sys.argv) > 1 else f"{ROOT}/bin/abella"


def with_all_stack():
    """As bin/abella does: the stack may be as large as the system allows, since recursion goes by the depth of terms."""
    hard = resource.getrlimit(resource.RLIMIT_STACK)[1]
    resource.setrlimit(resource.RLIMIT_STACK, (hard, hard))


def run(script, words=(), files=()):
    """Returns seconds, what was used, the status and the last line of what is printed, where the line has these words, the script is the
    input, and these files, by their names, lie where it runs."""
    with tempfile.TemporaryFile() as text, tempfile.TemporaryFile() as out, tempfile.TemporaryDirectory() as room:
        text.write(script.encode())
        text.seek(0)
        for name, lines in files:
            with open(f"{room}/{name}", "w", encoding="ascii") as file:
                file.write(lines)
        begun = time.monotonic()
        with subprocess.Popen([program(), *words], stdin=text, stdout=out, cwd=room, preexec_fn=with_all_stack) as ran:
            _, status, used = os.wait4(ran.pid, 0)
            ran.returncode = os.waitstatus_to_exitcode(status)
        seconds = time.monotonic() - begun
        out.seek(max(0, out.tell() - 200))
        lines = out.read().decode(errors="replace").rstrip("\n").split("\n")
    return seconds, used, ran.returncode, lines[-1]


def measure(script, words=()):
    """Returns seconds, peak memory in MB, the status and the last line of what is printed."""
    seconds, used, status, last = run(script, words)
    return seconds, used.ru_maxrss / 1024, status, last


def cost(script, files=()):
    """Returns processor seconds, peak memory in MB and the status, where these files lie beside."""
    _, used, status, _ = run(script, files=files)
    return used.ru_utime + used.ru_stime, used.ru_maxrss / 1024, status


def table(title, sizes, make, words=lambda size: ()):
    """Prints a line for each size: the time and the memory of the script that is made of it, and of the words that are."""
    print(title)
    for size in sizes:
        seconds, memory, status, last = measure(make(size), words(size))
        print(f"  {size:>8}  {seconds:8.2f} s  {memory:8.0f} MB  status {status}  {last[:60]}", flush=True)
