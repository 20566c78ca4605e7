"""A NATS client's half of a connection, for the scripts that judge what clients get."""
import asyncio
import contextlib


@contextlib.asynccontextmanager
async def connection(host, port):
    """A connection that has been greeted and has said that it wants no `+OK`, while this is entered."""
    reader, writer = await asyncio.open_connection(host, port)
    try:
        await reader.readuntil(b"\r\n")
        writer.write(b'CONNECT {"verbose":false}\r\n')
        yield reader, writer
    finally:
        writer.close()


async def messages(reader, writer):
    """The subject and the payload of each message, until the connection ends, which is an OSError or an IncompleteReadError."""
    while True:
        line = await reader.readuntil(b"\r\n")
        if line.startswith(b"MSG "):
            words = line.split()
            payload = await reader.readexactly(int(words[-1]) + 2)
            yield words[1].decode(), payload[:-2]
        elif line.startswith(b"PING"):
            writer.write(b"PONG\r\n")
        elif line.startswith(b"-ERR"):
            raise OSError(line)


def publication(subject, payload):
    """The bytes of a PUB."""
    return b"PUB %s %d\r\n%s\r\n" % (subject.encode(), len(payload), payload)
