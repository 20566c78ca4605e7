"""Runs a program with one request for memory refused: the first, the second, and so on, each in a run of its own.

The program is built already, and its input is a file. What it writes without a refusal is the whole output. With one refused it may go on, and then it
ends as it did and writes the same; or it ends with status 1, and has written a beginning of the whole. Anything else is a fault: another text, another
status, an end by a signal, or none within a minute.
A program over cases may end with status 1 as well once it has told that what it played until then was all as written.
A request counts that the C library gets from the program (tools/fail_alloc.c, preloaded). It needs a C compiler, `cc`.

Usage: tools/dev fail-alloc FILE PROGRAM WORD..
       runs the program with these words, and the file as its standard input
"""
import concurrent.futures
import os
import re
import struct
import subprocess
import sys
import tempfile

from repository import TOP

SHIM = os.path.join(TOP, "tools", "fail_alloc.c")

# How long a run may take, in seconds.
PATIENCE = 60

# The status of a program that ended for want of memory.
ENDED = 1

# So many runs with a fault are told.
TOLD = 10

# What a program over cases tells last, where nothing differs in what it played.
PLAYED = re.compile(rb"\d+ cases, \d+ calls: all as written\n\Z")


def shim_in(room):
    """The shim that refuses memory, which is compiled into this folder."""
    shim = os.path.join(room, "fail_alloc.so")
    subprocess.run(["cc", "-O2", "-shared", "-fPIC", "-o", shim, SHIM], check=True)
    return shim


class Program:
    """A program that was built, its words, its input, and the shim that refuses memory."""

    def __init__(self, room, words, path):
        self.room, self.words, self.path = room, words, path
        self.shim = shim_in(room)

    def run(self, **settings):
        """Runs it with these settings of the shim. Gives its status, None where it did not end in time, and what it wrote."""
        environment = {**os.environ, "LD_PRELOAD": self.shim, **settings}
        with open(self.path, "rb") as given:
            try:
                ran = subprocess.run(self.words, stdin=given, stdout=subprocess.PIPE, stderr=subprocess.DEVNULL, env=environment, timeout=PATIENCE, check=False)
            except subprocess.TimeoutExpired:
                return None, b""
        return ran.returncode, ran.stdout

    def requests(self):
        """How many requests a whole run makes, its status, and what it writes."""
        count = os.path.join(self.room, "count")
        status, written = self.run(FAIL_ALLOC_COUNT=count)
        with open(count, "rb") as file:
            return struct.unpack("=QQ", file.read())[0], status, written


def fault_of(whole, status, written):
    """What is wrong with a run in which a request was refused, or None."""
    if (status, written) == whole or (status == ENDED and whole[1].startswith(PLAYED.sub(b"", written))):
        return None
    if status is None:
        return f"did not end within {PATIENCE} seconds"
    if status < 0:
        return f"was ended by signal {-status}"
    if not whole[1].startswith(written):
        return "wrote another text"
    return f"ended with status {status} after {len(written)} of {len(whole[1])} bytes"


def try_all(program):
    """Tries a program with each request refused. Gives whether there was no fault."""
    count, *whole = program.requests()
    whole = tuple(whole)
    went_on, faults = 0, []

    def one(number):
        return number, program.run(FAIL_ALLOC_AT=str(number))

    with concurrent.futures.ThreadPoolExecutor(len(os.sched_getaffinity(0))) as pool:
        for number, ran in pool.map(one, range(1, count + 1)):
            went_on += ran == whole
            fault = fault_of(whole, *ran)
            if fault:
                faults.append(f"request {number}: the program {fault}")
    for fault in faults[:TOLD]:
        print(fault)
    print(f"{count} requests for memory, each refused once: {went_on} runs went on, {count - went_on - len(faults)} ended with a beginning of the output, {len(faults)} faults")
    return count > 0 and not faults


def main(words):
    if len(words) < 2 or not os.path.isfile(words[0]):
        return None
    with tempfile.TemporaryDirectory() as room:
        program = Program(room, [os.path.abspath(words[1]), *words[2:]], words[0])
        return 0 if try_all(program) else 1
