//! A client's connection to a server of this machine.

use crate::frames::{Frame, Frames, Malformed, Message};
use std::io::{self, ErrorKind, Read, Write};
use std::net::{Ipv4Addr, Shutdown, TcpStream};
use std::thread;
use std::time::Duration;

/// How long a read waits before it is seen whether all has ended.
const READ_PATIENCE: Duration = Duration::from_millis(100);

/// How long a write waits for a server that reads nothing.
const WRITE_PATIENCE: Duration = Duration::from_secs(10);

/// How many reads in a row may bring nothing before the server counts as stuck: 20 seconds of them.
const READS_IN_VAIN: u32 = 200;

/// How many bytes are asked for at once.
const CHUNK: usize = 262_144;

/// What the buffer holds: the longest frame whose payload is measured, and a chunk.
const ROOM: usize = 1_441_792;

/// How many calls one client makes until another hears one of them, and how long it waits between
/// two.
const CALLS: usize = 2_000;
const CALL_PAUSE: Duration = Duration::from_millis(5);

/// What a client sends first: it wants no `+OK`.
const HELLO: &[u8] =
    b"CONNECT {\"verbose\":false,\"pedantic\":false,\"lang\":\"bench\",\"version\":\"1.0.0\"}\r\n";

/// What the server answers with a PONG once it has done all that was sent before.
const PING: &[u8] = b"PING\r\n";

/// The subscription to calls has the number 0, as no other has.
pub const CALLS_SUBSCRIPTION: usize = 0;
const LISTEN: &[u8] = b"SUB bench.call 0\r\n";
const CALL: &[u8] = b"PUB bench.call 0\r\n\r\n";

/// What a read has brought.
#[derive(Clone, Copy, Debug, PartialEq, Eq)]
pub enum Brought {
    Bytes,
    /// Nothing in the time that a read waits.
    Nothing,
    /// The end of the connection.
    End,
}

/// The lines `-ERR` that a server has sent.
#[derive(Clone, Debug, Default)]
pub struct Complaints {
    pub count: u64,
    /// What the first of them said.
    pub first: Vec<u8>,
}

impl Complaints {
    fn note(&mut self, text: &[u8]) {
        if self.count == 0 {
            self.first = text.to_vec();
        }
        self.count += 1;
    }

    /// Adds what other connections were told.
    pub fn add(&mut self, other: &Complaints) {
        if self.count == 0 {
            self.first.clone_from(&other.first);
        }
        self.count += other.count;
    }
}

/// A client's connection.
pub struct Connection {
    stream: TcpStream,
    /// Between `start` and `end` are the bytes that were read and not used yet.
    buffer: Vec<u8>,
    start: usize,
    end: usize,
    pub complaints: Complaints,
}

impl Connection {
    /// Connects to the server of this machine whose clients come to this port, and waits until it
    /// has taken what a client sends first.
    ///
    /// The error is that of the socket, or that of [`Connection::settle`].
    pub fn new(port: u16) -> io::Result<Self> {
        let mut connection = Connection {
            stream: connected(port)?,
            buffer: vec![0; ROOM],
            start: 0,
            end: 0,
            complaints: Complaints::default(),
        };
        connection.greet()?;
        Ok(connection)
    }

    /// Connects anew, as [`Connection::new`] does; the connection until now is closed. Of it
    /// nothing is left that was read or complained of, also where there is an error.
    pub fn renew(&mut self, port: u16) -> io::Result<()> {
        (self.start, self.end) = (0, 0);
        self.complaints = Complaints::default();
        self.stream = connected(port)?;
        self.greet()
    }

    fn greet(&mut self) -> io::Result<()> {
        self.send(HELLO)?;
        self.settle()
    }

    /// Sends these bytes. The kind of the error is `WouldBlock` where the server takes none for 10
    /// seconds.
    pub fn send(&mut self, bytes: &[u8]) -> io::Result<()> {
        self.stream.write_all(bytes)
    }

    /// Sends no more: the server sees the end of what it reads.
    pub fn end_sending(&self) -> io::Result<()> {
        self.stream.shutdown(Shutdown::Write)
    }

    /// Reads what there is, for up to 100 milliseconds. A frame for which there is no room counts
    /// as the end.
    pub fn fill(&mut self) -> Brought {
        if self.buffer.len() - self.end < CHUNK {
            self.buffer.copy_within(self.start..self.end, 0);
            (self.start, self.end) = (0, self.end - self.start);
        }
        let room = self.buffer.len().min(self.end + CHUNK);
        match self.stream.read(&mut self.buffer[self.end..room]) {
            Ok(0) => Brought::End,
            Ok(count) => {
                self.end += count;
                Brought::Bytes
            }
            Err(error) => match error.kind() {
                ErrorKind::WouldBlock | ErrorKind::TimedOut | ErrorKind::Interrupted => {
                    Brought::Nothing
                }
                _ => Brought::End,
            },
        }
    }

    /// Goes over the frames that were read: each message is heard, and each PING is answered.
    /// Whether a PONG was among them.
    ///
    /// The kind of the error is `InvalidData` where the bytes are no frame; else it is that of
    /// [`Connection::send`].
    pub fn listen(&mut self, mut hear: impl FnMut(&Message<'_>)) -> io::Result<bool> {
        let mut frames = Frames::new(&self.buffer[self.start..self.end]);
        let mut has_ponged = false;
        for frame in frames.by_ref() {
            match frame {
                Ok(Frame::Message(message)) => hear(&message),
                Ok(Frame::Pong) => has_ponged = true,
                Ok(Frame::Refusal(text)) => self.complaints.note(text),
                Ok(Frame::Ping) => self.stream.write_all(b"PONG\r\n")?,
                Ok(Frame::Other) => {}
                Err(Malformed) => {
                    let text = "the server has sent bytes that are no frame";
                    return Err(io::Error::new(ErrorKind::InvalidData, text));
                }
            }
        }
        self.start = self.end - frames.rest().len();
        if self.start == self.end {
            (self.start, self.end) = (0, 0);
        }
        Ok(has_ponged)
    }

    /// Waits until the server has done all that was sent. What comes meanwhile is heard.
    ///
    /// The kind of the error is `TimedOut` where nothing comes for 20 seconds, and `UnexpectedEof`
    /// where the server closes the connection; else it is that of [`Connection::listen`].
    pub fn settle_with(&mut self, mut hear: impl FnMut(&Message<'_>)) -> io::Result<()> {
        self.send(PING)?;
        let mut in_vain = 0;
        while !self.listen(&mut hear)? {
            if !self.wait(&mut in_vain)? {
                return Err(closed());
            }
        }
        Ok(())
    }

    /// The same as [`Connection::settle_with`], where nobody hears what comes.
    pub fn settle(&mut self) -> io::Result<()> {
        self.settle_with(|_| {})
    }

    /// Reads until the server closes the connection. What comes is heard.
    ///
    /// The kind of the error is `TimedOut` where nothing comes for 20 seconds; else it is that of
    /// [`Connection::listen`].
    pub fn drain(&mut self, mut hear: impl FnMut(&Message<'_>)) -> io::Result<()> {
        let mut in_vain = 0;
        loop {
            self.listen(&mut hear)?;
            if !self.wait(&mut in_vain)? {
                return Ok(());
            }
        }
    }

    /// Reads what there is, and counts the reads in a row that bring nothing. Whether the
    /// connection is still open.
    fn wait(&mut self, in_vain: &mut u32) -> io::Result<bool> {
        match self.fill() {
            Brought::Bytes => *in_vain = 0,
            Brought::Nothing if *in_vain < READS_IN_VAIN => *in_vain += 1,
            Brought::Nothing => {
                let text = "the server has not answered for 20 seconds";
                return Err(io::Error::new(ErrorKind::TimedOut, text));
            }
            Brought::End => return Ok(false),
        }
        Ok(true)
    }

    /// Waits until what this client publishes comes to the other one. As servers learn in order
    /// what others subscribe to, the server of this client then knows all that the other one has
    /// subscribed to before.
    ///
    /// The kind of the error is `TimedOut` where nothing comes in 2,000 calls, some 5 milliseconds
    /// each; else it is that of [`Connection::settle`].
    pub fn reach(&mut self, other: &mut Connection) -> io::Result<()> {
        other.send(LISTEN)?;
        other.settle()?;
        for _ in 0..CALLS {
            self.send(CALL)?;
            self.settle()?;
            let mut is_heard = false;
            other.settle_with(|_| is_heard = true)?;
            if is_heard {
                return Ok(());
            }
            thread::sleep(CALL_PAUSE);
        }
        let text = "what one client publishes does not come to another";
        Err(io::Error::new(ErrorKind::TimedOut, text))
    }
}

/// The server has closed the connection.
pub fn closed() -> io::Error {
    let text = "the server has closed the connection";
    io::Error::new(ErrorKind::UnexpectedEof, text)
}

fn connected(port: u16) -> io::Result<TcpStream> {
    let stream = TcpStream::connect((Ipv4Addr::LOCALHOST, port))?;
    stream.set_nodelay(true)?;
    stream.set_read_timeout(Some(READ_PATIENCE))?;
    stream.set_write_timeout(Some(WRITE_PATIENCE))?;
    Ok(stream)
}

#[cfg(test)]
mod tests {
    use super::*;
    use std::net::TcpListener;
    use std::thread::JoinHandle;

    /// A server for one client. It sends the first of these bytes once the client has greeted it,
    /// and the others at the client's next PING; then it closes the connection. What the client has
    /// sent by the end.
    fn server_that_sends(
        first: &'static [u8],
        then: Vec<u8>,
    ) -> io::Result<(u16, JoinHandle<io::Result<Vec<u8>>>)> {
        let listener = TcpListener::bind((Ipv4Addr::LOCALHOST, 0))?;
        let port = listener.local_addr()?.port();
        let server = thread::spawn(move || {
            let (mut stream, _) = listener.accept()?;
            let mut sent = vec![0; HELLO.len() + PING.len()];
            stream.read_exact(&mut sent)?;
            stream.write_all(first)?;
            let mut ping = [0; PING.len()];
            if stream.read_exact(&mut ping).is_ok() {
                sent.extend_from_slice(&ping);
                stream.write_all(&then)?;
            }
            stream.shutdown(Shutdown::Write)?;
            stream.read_to_end(&mut sent)?;
            Ok(sent)
        });
        Ok((port, server))
    }

    #[test]
    fn what_comes_before_the_pong_is_heard() {
        let told = b"PING\r\n-ERR 'first'\r\n-ERR 'second'\r\nMSG a 1 2\r\nxy\r\nPONG\r\n";
        let (port, server) = server_that_sends(b"INFO {}\r\nPONG\r\n", told.to_vec()).unwrap();
        let mut connection = Connection::new(port).unwrap();
        let mut payloads = Vec::new();
        let hear = |message: &Message<'_>| payloads.push(message.payload.to_vec());
        connection.settle_with(hear).unwrap();
        assert_eq!(payloads, [b"xy"]);
        assert_eq!(connection.complaints.count, 2);
        assert_eq!(connection.complaints.first, b"'first'");
        connection
            .drain(|_| panic!("no further message comes"))
            .unwrap();
        drop(connection);
        let sent = [HELLO, PING, PING, b"PONG\r\n"].concat();
        assert_eq!(server.join().unwrap().unwrap(), sent);
    }

    #[test]
    fn payloads_of_a_mebibyte_come_whole() {
        let payload: Vec<u8> = (0..=250).cycle().take(1_048_576).collect();
        let message = [b"MSG a 1 1048576\r\n", &payload[..], b"\r\n"].concat();
        let told = [&message[..], &message, b"PONG\r\n"].concat();
        let (port, server) = server_that_sends(b"PONG\r\n", told).unwrap();
        let mut connection = Connection::new(port).unwrap();
        let mut count = 0;
        let hear = |message: &Message<'_>| {
            assert!(message.payload == payload);
            count += 1;
        };
        connection.settle_with(hear).unwrap();
        assert_eq!(count, 2);
        drop(connection);
        server.join().unwrap().unwrap();
    }

    #[test]
    fn what_ends_a_connection_is_told_by_its_kind() {
        for (told, kind) in [
            (&b"INFO {}\r\n"[..], ErrorKind::UnexpectedEof),
            (b"HELLO\r\n", ErrorKind::InvalidData),
        ] {
            let (port, server) = server_that_sends(b"PONG\r\n", told.to_vec()).unwrap();
            let mut connection = Connection::new(port).unwrap();
            assert_eq!(connection.settle().unwrap_err().kind(), kind);
            drop(connection);
            server.join().unwrap().unwrap();
        }
    }
}
