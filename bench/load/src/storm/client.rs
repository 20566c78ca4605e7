//! A client, which comes and goes.

use crate::connection::{closed, Brought, Connection};
use crate::storm::draw::Draw;
use crate::storm::judge::Judge;
use crate::storm::payloads::Head;
use crate::storm::scene::Scene;
use crate::storm::subjects::{Pattern, SUBJECT_COUNT};
use crate::storm::tables::{Action, ACTIONS, GROUPS, MOST_MESSAGES, SIZES};
use crate::storm::verdict::Verdict;
use std::io;
use std::thread;
use std::time::Duration;

/// The number of a message that is never published whole.
const NEVER_WHOLE: u64 = u64::MAX;

/// Whether a client stays on its connection.
#[derive(Clone, Copy, Debug, PartialEq, Eq)]
enum Stays {
    Yes,
    No,
}

/// A client, with all of its lives.
pub struct Client<'a> {
    scene: &'a Scene,
    place: usize,
    connection: Connection,
    judge: Judge<'a>,
    draw: Draw,
    /// What it sends next.
    commands: Vec<u8>,
}

impl<'a> Client<'a> {
    /// The client at this place, which has not lived yet. The error is that of its first
    /// connection.
    pub fn new(scene: &'a Scene, place: usize) -> io::Result<Self> {
        Ok(Client {
            scene,
            place,
            connection: Connection::new(scene.ports[place % 3])?,
            judge: Judge::new(scene, place),
            draw: Draw::new(scene.seed, place as u64),
            commands: Vec::new(),
        })
    }

    /// Lives one life after another, until the storm has ended: what came to it. The error is want
    /// of memory of the system.
    pub fn run(mut self) -> io::Result<Verdict> {
        while !self.scene.has_ended() {
            self.judge.begin_life();
            let lived = self.come();
            self.judge.end_life(lived, &self.connection.complaints)?;
        }
        Ok(self.judge.verdict)
    }

    /// Comes to a drawn server, and lives there.
    fn come(&mut self) -> io::Result<()> {
        let server = self.draw.place(3);
        match self.connection.renew(self.scene.ports[server]) {
            Ok(()) => self.live(),
            Err(error) => self.judge.note_unreachable(error),
        }
    }

    /// Does what it draws until it goes. At the end of the storm it stays until it has heard all
    /// that is on its way.
    fn live(&mut self) -> io::Result<()> {
        while !self.scene.has_ended() {
            let action = self.draw.weighted(&ACTIONS);
            if self.perform(action)? == Stays::No {
                return Ok(());
            }
        }
        self.settle()
    }

    fn perform(&mut self, action: Action) -> io::Result<Stays> {
        match action {
            Action::Publish(count) => self.publish(count)?,
            Action::Subscribe => self.subscribe()?,
            Action::Join => self.join()?,
            Action::Unsubscribe => self.unsubscribe()?,
            Action::Read(times) => self.read(times)?,
            Action::Settle => self.settle()?,
            Action::Rest(most) => self.rest(most),
            Action::Stall(most) => self.stall(most)?,
            Action::HalfClose => {
                self.half_close()?;
                return Ok(Stays::No);
            }
            Action::BreakOff => {
                self.break_off()?;
                return Ok(Stays::No);
            }
            Action::Go => return Ok(Stays::No),
        }
        Ok(Stays::Yes)
    }

    /// Puts the command behind the others that publishes a drawn message of this number.
    fn put_message(&mut self, number: u64) {
        let subject = self.draw.place(SUBJECT_COUNT);
        let head = Head {
            client: self.place,
            life: self.judge.verdict.lives,
            number,
            subject,
            size: self.draw.weighted(&SIZES),
        };
        let text = self.scene.subjects.text(subject).unwrap_or_default();
        self.scene
            .filling
            .put_message(&mut self.commands, text, &head);
    }

    /// Publishes so many messages in one piece, as far as it may publish more.
    fn publish(&mut self, count: u64) -> io::Result<()> {
        self.commands.clear();
        let first = self.judge.verdict.sent;
        let end = (first + count).min(MOST_MESSAGES);
        for number in first..end {
            self.put_message(number);
        }
        self.judge.verdict.sent = end;
        self.connection.send(&self.commands)
    }

    /// Subscribes to this pattern, as a member of this queue group or of none.
    fn open(&mut self, pattern: Pattern, group: Option<usize>) -> io::Result<()> {
        let Some(number) = self.judge.open(pattern, group) else {
            return Ok(());
        };
        let pattern = self.scene.subjects.pattern_text(pattern);
        let group = group.map_or("", |group| GROUPS[group]);
        let line = format!("SUB {pattern} {group} {number}\r\n");
        self.connection.send(line.as_bytes())
    }

    /// Subscribes to a drawn pattern.
    fn subscribe(&mut self) -> io::Result<()> {
        let pattern = Pattern::drawn(&mut self.draw);
        self.open(pattern, None)
    }

    /// Subscribes to a drawn pattern as a member of a drawn queue group.
    fn join(&mut self) -> io::Result<()> {
        let pattern = Pattern::drawn(&mut self.draw);
        let group = self.draw.place(GROUPS.len());
        self.open(pattern, Some(group))
    }

    /// Ends a drawn subscription, if it is open.
    fn unsubscribe(&mut self) -> io::Result<()> {
        let number = self.draw.place(self.judge.made()) + 1;
        if self.judge.end(number) {
            let line = format!("UNSUB {number}\r\n");
            self.connection.send(line.as_bytes())?;
        }
        Ok(())
    }

    /// Reads what there is, so often.
    fn read(&mut self, times: u64) -> io::Result<()> {
        for _ in 0..times {
            match self.connection.fill() {
                Brought::Bytes => {
                    self.connection.listen(|message| self.judge.hear(message))?;
                }
                Brought::Nothing => break,
                Brought::End => return Err(closed()),
            }
        }
        Ok(())
    }

    /// Waits until the server has done all that was asked.
    fn settle(&mut self) -> io::Result<()> {
        self.connection
            .settle_with(|message| self.judge.hear(message))?;
        self.judge.settled();
        Ok(())
    }

    /// Neither reads nor writes, for less than so many milliseconds, and no longer than the storm
    /// lasts.
    fn rest(&mut self, most: u64) {
        let time = Duration::from_millis(self.draw.below(most));
        thread::sleep(time.min(self.scene.left()));
    }

    /// Subscribes to all subjects, and rests.
    fn stall(&mut self, most: u64) -> io::Result<()> {
        self.open(Pattern::ALL, None)?;
        self.rest(most);
        Ok(())
    }

    /// Sends no more, and reads until the server closes the connection.
    fn half_close(&mut self) -> io::Result<()> {
        self.connection.end_sending()?;
        self.connection.drain(|message| self.judge.hear(message))
    }

    /// Breaks off in the middle of a command. The last of the commands is never whole.
    fn break_off(&mut self) -> io::Result<()> {
        self.commands.clear();
        self.commands.extend_from_slice(b"UNSUB 1\r\nPING\r\n");
        self.put_message(NEVER_WHOLE);
        let length = self.draw.place(self.commands.len());
        self.connection.send(&self.commands[..length])
    }
}
