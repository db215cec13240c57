"""Prints how often a command reads from files, how many bytes that is, and its processor time: python3 reads.py COMMAND..

The counts are those of Linux in /proc/PID/io, taken when the command has ended. The few reads of its start are among them.
"""
import os
import subprocess
import sys

process = subprocess.Popen(sys.argv[1:], stdout=subprocess.DEVNULL)
os.waitid(os.P_PID, process.pid, os.WEXITED | os.WNOWAIT)
with open(f"/proc/{process.pid}/io", encoding="ascii") as file:
    counts = dict(line.split(": ") for line in file.read().splitlines())
_, status, used = os.wait4(process.pid, 0)
process.returncode = os.waitstatus_to_exitcode(status)
seconds = used.ru_utime + used.ru_stime
print(f"status {process.returncode}, {counts['syscr']} reads, {counts['rchar']} bytes, {seconds:.2f} s")
