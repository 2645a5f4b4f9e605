"""Runs a command twice: once for its seconds, and tasks a second where it runs some; once for its peak memory in MiB."""
import subprocess
import sys
import tempfile
import time

name, tasks, command = sys.argv[1], int(sys.argv[2]), sys.argv[3:]
start = time.perf_counter()
subprocess.run(command, stdout=subprocess.DEVNULL, check=True)
seconds = time.perf_counter() - start
# A child that Python starts would be charged with Python's own pages.
with tempfile.NamedTemporaryFile("r") as peak:
    subprocess.run(["/usr/bin/time", "-f", "%M", "-o", peak.name, *command], stdout=subprocess.DEVNULL, check=True)
    mebibytes = int(peak.read()) / 1024
rate = f", {tasks / seconds:,.0f} tasks a second" if tasks else ""
print(f"{name}: {seconds:.3f} s{rate}, {mebibytes:.1f} MiB")
