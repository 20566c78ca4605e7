//! What is told of a run.

use crate::connection::{Complaints, Connection};
use crate::json::Object;
use std::time::Duration;

/// What is told of a run.
#[derive(Default)]
pub struct Figures {
    /// How many messages, or requests, were sent.
    pub sent: u64,
    /// From the start to where the servers had taken all of them.
    pub sending: Duration,
    /// How many messages, or replies, came, each counted once for each set of receivers that has to
    /// get it.
    pub delivered: u64,
    /// From the start to where the last of them came.
    pub delivering: Duration,
    pub lost: u64,
    pub doubled: u64,
    pub disordered: u64,
    /// How many payloads were of no message.
    pub strange: u64,
    /// How many connections the servers have closed.
    pub closed: u64,
    pub complaints: Complaints,
    /// How long each round trip took; none where there are no round trips.
    pub trips: Vec<Duration>,
    /// The connections stay open until the figures are told, so that closing them is not measured.
    pub open: Vec<Connection>,
}

impl Figures {
    /// Keeps a connection, and adds what its server has complained of.
    pub fn keep(&mut self, connection: Connection) {
        self.complaints.add(&connection.complaints);
        self.open.push(connection);
    }

    /// How much went wrong.
    pub fn flaws(&self) -> u64 {
        let of_messages = self.lost + self.doubled + self.disordered + self.strange;
        of_messages + self.closed + self.complaints.count
    }

    /// The figures of this case, with payloads of so many bytes.
    pub fn told(&mut self, case: &str, size: usize) -> Object {
        let bytes_of = |count: u64| u128::from(count) * size as u128;
        let object = Object::new()
            .text("case", case)
            .numbers([
                ("payload", size as u128),
                ("sent", self.sent.into()),
                ("sent_per_second", rate(self.sent, self.sending)),
                ("sent_bytes", bytes_of(self.sent)),
                ("sending_nanoseconds", self.sending.as_nanos()),
                ("delivered", self.delivered.into()),
                (
                    "delivered_per_second",
                    rate(self.delivered, self.delivering),
                ),
                ("delivered_bytes", bytes_of(self.delivered)),
                ("delivering_nanoseconds", self.delivering.as_nanos()),
                ("lost", self.lost.into()),
                ("doubled", self.doubled.into()),
                ("out_of_order", self.disordered.into()),
                ("strange", self.strange.into()),
                ("closed", self.closed.into()),
                ("refusals", self.complaints.count.into()),
            ])
            .text("refusal", &String::from_utf8_lossy(&self.complaints.first));
        self.trips.sort_unstable();
        match (percentile(&self.trips, 50), percentile(&self.trips, 99)) {
            (Some(median), Some(p99)) => object
                .number("median_nanoseconds", median.as_nanos())
                .number("p99_nanoseconds", p99.as_nanos()),
            _ => object,
        }
    }
}

/// How many of so many there are a second; 0 where there was no time.
pub fn rate(count: u64, time: Duration) -> u128 {
    let second = Duration::from_secs(1).as_nanos();
    (u128::from(count) * second)
        .checked_div(time.as_nanos())
        .unwrap_or(0)
}

/// The value behind so many hundredths, below a hundred, of the values, which are in order; none
/// where there are none.
fn percentile<T: Copy>(values: &[T], hundredths: usize) -> Option<T> {
    values.get(values.len() * hundredths / 100).copied()
}

#[cfg(test)]
mod tests {
    use super::*;

    #[test]
    fn percentiles_are_values_behind_a_part_of_all() {
        let values: Vec<u32> = (1..=200).collect();
        // behind 100 of them, and behind 198 of them
        assert_eq!(percentile(&values, 50), Some(101));
        assert_eq!(percentile(&values, 99), Some(199));
        assert_eq!(percentile(&[7], 99), Some(7));
        assert_eq!(percentile(&[1, 2, 3], 50), Some(2));
        assert_eq!(percentile::<u32>(&[], 50), None);
    }

    #[test]
    fn rates_are_of_a_second() {
        assert_eq!(rate(300, Duration::from_millis(1_500)), 200);
        assert_eq!(rate(2, Duration::from_secs(3)), 0);
        assert_eq!(
            rate(1_000_000_000, Duration::from_nanos(1)),
            1_000_000_000_000_000_000
        );
        assert_eq!(rate(5, Duration::ZERO), 0);
    }

    #[test]
    fn figures_are_one_line() {
        let mut figures = Figures {
            sent: 10,
            sending: Duration::from_secs(2),
            delivered: 9,
            delivering: Duration::from_secs(3),
            lost: 1,
            complaints: Complaints {
                count: 2,
                first: b"'Slow Consumer'".to_vec(),
            },
            trips: [5, 1, 3].map(Duration::from_micros).to_vec(),
            ..Figures::default()
        };
        let line = "{\"case\": \"requests\", \"payload\": 16, \"sent\": 10, \
            \"sent_per_second\": 5, \"sent_bytes\": 160, \"sending_nanoseconds\": 2000000000, \
            \"delivered\": 9, \"delivered_per_second\": 3, \"delivered_bytes\": 144, \
            \"delivering_nanoseconds\": 3000000000, \"lost\": 1, \"doubled\": 0, \
            \"out_of_order\": 0, \"strange\": 0, \"closed\": 0, \"refusals\": 2, \
            \"refusal\": \"'Slow Consumer'\", \"median_nanoseconds\": 3000, \
            \"p99_nanoseconds\": 5000}";
        assert_eq!(figures.told("requests", 16).to_string(), line);
        assert_eq!(figures.flaws(), 3);
    }
}
