"""Runs a program on streams that do not block or that nobody reads, and prints how it ends."""
import fcntl
import os
import signal
import subprocess
import sys
import time

program = sys.argv[1]
FILES = ["source.lus", "traces.csv"]


def without_blocking(stream):
    flags = fcntl.fcntl(stream, fcntl.F_GETFL)
    fcntl.fcntl(stream, fcntl.F_SETFL, flags | os.O_NONBLOCK)


def tell(name, status, errors):
    print(f"{name}: {status} {errors.decode().strip()}".strip())


reading, writing = os.pipe()
without_blocking(reading)
run = subprocess.run([program, "source.lus"], stdin=reading, capture_output=True)
tell("input that does not block", run.returncode, run.stderr)

reading, writing = os.pipe()
without_blocking(writing)
run = subprocess.run([program, *FILES], stdout=writing, stderr=subprocess.PIPE)
tell("output that does not block", run.returncode, run.stderr)

reading, writing = os.pipe()
os.close(reading)
run = subprocess.run([program, *FILES], stdout=writing, stderr=subprocess.PIPE)
tell("output that nobody reads", run.returncode, run.stderr)

for name in ["SIGINT", "SIGTERM"]:
    run = subprocess.Popen(
        [program, "source.lus"],
        stdin=subprocess.PIPE, stdout=subprocess.PIPE, stderr=subprocess.PIPE)
    time.sleep(0.3)
    run.send_signal(getattr(signal, name))
    _, errors = run.communicate()
    tell(name, run.returncode, errors)
