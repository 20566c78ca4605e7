"""Builds the programs that are measured and the one that loads them, starts servers, and tells what these take."""
import os
import random
import re
import shutil
import socket
import subprocess
import sys
import time

sys.path.append(os.path.join(os.path.dirname(os.path.dirname(os.path.abspath(__file__))), "tools"))

from repository import TOP, cause_against, program_of

# The program that loads servers: its sources, and where it is built.
LOAD = os.path.join(TOP, "bench", "load")
LOAD_TARGET = os.path.join(LOAD, "target")

# A line of the launcher that gives a variable to the program, where its environment has none of this name.
GIVEN = re.compile(r'^export (\w+)="\$\{\1:-([\w.=]+)\}"$', re.MULTILINE)

# How long servers may take to start, in seconds.
START_PATIENCE = 20

# How long servers have to close what their clients have left, in seconds: longer than their own deadlines.
CLOSING_PATIENCE = 20

TICKS = os.sysconf("SC_CLK_TCK")


class Failed(Exception):
    """A run that gave no figures."""


def tell_help(text):
    """Where a word of the command line asks for help, prints this text and ends this process, before anything is built."""
    if {"-h", "--help"} & set(sys.argv[1:]):
        print(text.strip())
        sys.exit(0)


def built(name, is_proved=True):
    """The program of this name, which is built first where it is missing or older than its sources: the proved one, or one of the same
    sources that nobody has proved here."""
    path = program_of(name, is_proved)
    if cause_against(path):
        tool = "build.py" if is_proved else "unproved.py"
        subprocess.run([sys.executable, os.path.join(TOP, "tools", tool), name], stdin=subprocess.DEVNULL, stdout=sys.stderr, check=True)
        os.utime(path)
    return path


def built_load():
    """The program that loads servers, which is built first where it is missing or older than its sources. It is plain Rust, and nothing of it is
    proved. Ends this process where it cannot be built."""
    if shutil.which("cargo") is None:
        sys.exit(f"bench: cargo is missing, which builds the program that loads servers ({os.path.relpath(LOAD)}): install Rust 1.82 or newer")
    words = ["cargo", "build", "--release", "--offline", "--quiet", "--manifest-path", os.path.join(LOAD, "Cargo.toml"), "--target-dir", LOAD_TARGET]
    if subprocess.run(words, stdin=subprocess.DEVNULL, stdout=sys.stderr, check=False).returncode != 0:
        sys.exit("bench: the program that loads servers cannot be built")
    return os.path.join(LOAD_TARGET, "release", "nats_load")


def given_variables():
    """What the launcher puts into the environment of the program, by the names of the variables."""
    with open(os.path.join(TOP, "nats_mesh"), encoding="utf-8") as launcher:
        given = dict(GIVEN.findall(launcher.read()))
    return {name: os.environ.get(name) or value for name, value in given.items()}


def kilobytes_of(process, name):
    """What the system tells of a process's memory under this name."""
    with open("/proc/%d/status" % process.pid, encoding="utf-8") as lines:
        return sum(int(line.split()[1]) for line in lines if line.startswith(name + ":"))


def is_free(port):
    with socket.socket() as probe:
        try:
            probe.bind(("127.0.0.1", port))
        except OSError:
            return False
    return True


def free_ports(count):
    """The first of so many free ports in a row, below those that the system gives away itself."""
    while True:
        first = random.randrange(15_000, 30_000)
        if all(is_free(first + place) for place in range(count)):
            return first


def wait_for_port(port):
    deadline = time.monotonic() + START_PATIENCE
    while time.monotonic() < deadline:
        try:
            socket.create_connection(("127.0.0.1", port)).close()
            return
        except OSError:
            time.sleep(0.02)
    raise Failed("nothing listens")


class Servers:
    """So many servers of one kind, which run."""

    def __init__(self, commands, ports, settings=None):
        self.ports = ports
        environment = {**os.environ, **(settings or {})}
        self.processes = [
            subprocess.Popen(command, env=environment, stdin=subprocess.DEVNULL, stdout=subprocess.DEVNULL, stderr=subprocess.DEVNULL)
            for command in commands]

    def __enter__(self):
        try:
            for port in self.ports:
                wait_for_port(port)
        except Failed:
            self.stop()
            raise
        return self

    def __exit__(self, *_error):
        self.stop()

    def stop(self):
        for process in self.processes:
            process.kill()
            process.wait()

    def have_ended(self):
        """Whether one of them runs no longer."""
        return any(process.poll() is not None for process in self.processes)

    def processor_seconds(self):
        """The time that the processors have worked for them."""
        seconds = 0
        for process in self.processes:
            with open("/proc/%d/stat" % process.pid, encoding="utf-8") as file:
                fields = file.read().rpartition(")")[2].split()
            seconds += (int(fields[11]) + int(fields[12])) / TICKS
        return seconds

    def kilobytes(self, name):
        """What the system tells of their memory under this name, in all."""
        return sum(kilobytes_of(process, name) for process in self.processes)

    def peak_kilobytes(self):
        return self.kilobytes("VmHWM")

    def resident_kilobytes(self):
        return self.kilobytes("VmRSS")

    def descriptors(self):
        return sum(len(os.listdir("/proc/%d/fd" % process.pid)) for process in self.processes)

    def descriptors_left(self, before):
        """How many more descriptors they have than before, once they have had the time to close what their clients have left."""
        deadline = time.monotonic() + CLOSING_PATIENCE
        while self.descriptors() > before and time.monotonic() < deadline:
            time.sleep(0.1)
        return self.descriptors() - before


def loop_words(loops):
    """What a command line of `serve` says so that each server has so many loops, and no fewer shards."""
    return [] if loops == 1 else ["--loops", str(loops), "--shards", str(max(2, loops))]


def nats_mesh(program, count, settings=None, loops=1):
    """So many servers of nats_mesh, in one process, with so many loops each, with these settings in its environment and what the launcher puts there."""
    first = free_ports(2 * count)
    command = [program, "serve", "--nodes", str(count), "--port", str(first), *loop_words(loops)]
    return Servers([command], [first + place for place in range(count)], {**given_variables(), **(settings or {})})


def nats_server(count):
    """So many servers of nats-server, each a process."""
    first = free_ports(2 * count)
    routes = ["nats://127.0.0.1:%d" % (first + count + place) for place in range(count)]
    commands = []
    for place in range(count):
        command = ["nats-server", "-a", "127.0.0.1", "-p", str(first + place)]
        if count > 1:
            command += ["--cluster_name", "bench", "--cluster", routes[place], "--routes", ",".join(routes)]
        commands.append(command)
    return Servers(commands, [first + place for place in range(count)])


def port_words(ports):
    """What a command line of nats_load says of where clients come to."""
    return [word for option, port in zip(["--port", "--second", "--third"], ports) for word in (option, str(port))]
