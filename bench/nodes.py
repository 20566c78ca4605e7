"""Servers of a mesh that are processes of their own (`nats_mesh node`), each with a folder and a log."""
import asyncio
import os
import subprocess

from servers import Failed, given_variables, kilobytes_of

# How long a server may take until it is ready, in seconds: its program is read from the disk.
READY = 10.0


class Node:
    """One server of the mesh that the file `mesh.toml` of a folder describes, and its lives."""

    def __init__(self, name, program, room):
        self.name, self.program = name, program
        self.mesh, self.state, self.log = os.path.join(room, "mesh.toml"), os.path.join(room, name), os.path.join(room, name + ".log")
        self.incarnation, self.process = 0, None
        os.mkdir(self.state)

    def words(self):
        """The command line that starts its next life."""
        first = [] if self.incarnation else ["--least-inc", "1"]
        return [self.program, "node", self.name, "--mesh", self.mesh, "--state", self.state, *first]

    async def start(self):
        """Starts the next life, and waits until it is ready."""
        with open(self.log, "ab") as log:
            self.process = await asyncio.create_subprocess_exec(
                *self.words(), stdin=subprocess.DEVNULL, stdout=subprocess.PIPE, stderr=log, env={**os.environ, **given_variables()})
        told = await asyncio.wait_for(self.process.stdout.readline(), READY)
        ready = await asyncio.wait_for(self.process.stdout.readline(), READY)
        words = told.split()
        if not ready or len(words) != 3:
            raise Failed("%s does not start: %r %r" % (self.name, told, ready))
        self.incarnation = int(words[2])

    async def kill(self):
        self.process.kill()
        await self.process.wait()

    def kilobytes(self):
        """Its resident memory."""
        resident = kilobytes_of(self.process, "VmRSS")
        if not resident:
            raise Failed("%s has ended" % self.name)
        return resident
