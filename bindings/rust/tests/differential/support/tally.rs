//! How often each call answered each number, against what the header lists.

use std::fmt::Write;
use std::sync::{Mutex, PoisonError};

use super::say;

/// One call: the subject that tries it, the numbers it has to answer there, and those it has to
/// answer where lists of other lengths are lent. 0 is done. It may answer no other number: 23
/// belongs to writing and cutting, and would be a fault in reading and joining. A call that gives a
/// position answers no number: it is counted by the number of the read or joining that it was asked
/// beside.
struct Row {
    name: &'static str,
    home: &'static str,
    listed: &'static [u8],
    by_length: &'static [u8],
}

macro_rules! calls {
    ($($call:ident $name:literal $home:literal $listed:expr, $by_length:expr;)*) => {
        /// The calls of the header.
        #[derive(Clone, Copy)]
        pub enum Call { $($call),* }

        const ROWS: &[Row] = &[$(Row {
            name: $name,
            home: $home,
            listed: &$listed,
            by_length: &$by_length,
        }),*];
    };
}

calls! {
    LinkDistance "pk_link_distance" "window" [0], [];
    LinkNext "pk_link_next" "window" [0], [];
    PacketDistance "pk_packet_distance" "window" [0], [];
    PacketNext "pk_packet_next" "window" [0], [];
    SenderFresh "pk_sender_fresh" "window" [0], [14];
    SenderInOrder "pk_sender_in_order" "window" [0, 14], [14];
    SenderSend "pk_sender_send" "window" [0, 14, 9], [14];
    SenderAcknowledge "pk_sender_acknowledge" "window" [0, 14, 1, 16], [14];
    SenderReady "pk_sender_ready" "window" [0, 14, 1, 16], [14];
    SenderNotReady "pk_sender_not_ready" "window" [0, 14, 1, 16], [14];
    SenderReject "pk_sender_reject" "window" [0, 14, 1, 16], [14];
    ReceiverFresh "pk_receiver_fresh" "window" [0], [14];
    ReceiverInOrder "pk_receiver_in_order" "window" [0, 14], [14];
    ReceiverReceive "pk_receiver_receive" "window" [0, 14, 1, 12, 10, 11], [14];
    ReceiverTell "pk_receiver_tell" "window" [0, 14], [14];
    ResequencerFresh "pk_resequencer_fresh" "resequencer" [0], [14];
    ResequencerInOrder "pk_resequencer_in_order" "resequencer" [0, 14], [14];
    ResequencerArrive "pk_resequencer_arrive" "resequencer" [0, 14, 1, 5], [0, 14, 1, 5];
    ResequencerClockEnd "pk_resequencer_clock_end" "resequencer" [0, 14, 1, 5, 7], [0, 14, 1, 5, 7];
    FrameWrite "pk_frame_write" "frames" [0, 1, 23, 13, 5], [1, 23];
    RouteWrite "pk_route_write" "routes-frames" [0, 1, 23, 13, 5], [];
    FrameRead "pk_frame_read" "frames" [0, 1, 2, 3, 13, 5], [0, 1, 2, 3, 13, 5];
    FrameFault "pk_frame_fault" "frames" [0, 1, 2, 3, 13], [0, 1, 2, 3, 13];
    MessageCut "pk_message_cut" "messages" [0, 1, 23, 4, 5], [];
    MessageJoin "pk_message_join" "messages" [0, 1, 2, 3, 13, 17, 4, 5], [];
    MessageFault "pk_message_fault" "messages" [0, 1, 2, 3, 13, 17, 4, 5], [];
    TableEmpty "pk_table_empty" "routes" [0], [14];
    TableCodes "pk_table_codes" "routes" [0], [14];
    TableCount "pk_table_count" "routes" [0], [14];
    TableChoose "pk_table_choose" "choice" [0, 1, 8, 15], [14];
    TableUpdate "pk_table_update" "routes" [0, 5, 6], [0, 14, 5, 6];
    Choose "pk_choose" "choice" [0, 1, 8, 15], [];
}

/// The subject that lends lists of other lengths.
const LENGTHS: &str = "lengths";
const SUBJECTS: usize = 10;
/// 23 is the largest refusal; 18 to 22 belong to calls that the header does not have.
const NUMBERS: usize = 24;

type Counts = [[u64; NUMBERS]; ROWS.len()];

/// What all subjects have seen so far, and how many have finished.
static SEEN: Mutex<(Counts, usize)> = Mutex::new(([[0; NUMBERS]; ROWS.len()], 0));

/// What one subject has seen.
pub struct Tally {
    subject: &'static str,
    counts: Counts,
}

impl Tally {
    pub fn new(subject: &'static str) -> Self {
        Tally {
            subject,
            counts: [[0; NUMBERS]; ROWS.len()],
        }
    }

    /// Counts one answer by its low 8 bits.
    #[track_caller]
    pub fn saw(&mut self, call: Call, answer: u64) {
        let number = usize::from(answer as u8);
        assert!(
            number < NUMBERS,
            "{} answered {answer:#x}",
            ROWS[call as usize].name
        );
        self.counts[call as usize][number] += 1;
    }

    /// How often a call was seen with one of these numbers.
    pub fn count(&self, call: Call, numbers: &[u8]) -> u64 {
        let counts = &self.counts[call as usize];
        numbers
            .iter()
            .map(|&number| counts[usize::from(number)])
            .sum()
    }

    /// Adds to what the other subjects saw, prints the table after the last of them, and fails
    /// if a number that the header lists was never answered, or one that it does not list was.
    pub fn finish(self) {
        let mut seen = SEEN.lock().unwrap_or_else(PoisonError::into_inner);
        for (sum, row) in seen.0.iter_mut().zip(&self.counts) {
            sum.iter_mut()
                .zip(row)
                .for_each(|(sum, count)| *sum += count);
        }
        seen.1 += 1;
        if seen.1 == SUBJECTS {
            say(&table(&seen.0));
        }
        drop(seen);
        let faults: Vec<String> = self.faults().collect();
        assert!(faults.is_empty(), "{}", faults.join("\n"));
    }

    fn faults(&self) -> impl Iterator<Item = String> + '_ {
        let rows = ROWS.iter().zip(&self.counts);
        rows.flat_map(|(row, counts)| {
            let wanted = self.wanted(row);
            (0..).zip(counts).filter_map(move |(number, &count)| {
                let listed = row.listed.contains(&number) || row.by_length.contains(&number);
                match (wanted.contains(&number), listed, count) {
                    (true, _, 0) => Some(format!("{} never answered {number}", row.name)),
                    (_, false, 1..) => Some(format!("{} answered {number}", row.name)),
                    _ => None,
                }
            })
        })
    }

    /// The numbers that this subject has to see from a call.
    fn wanted(&self, row: &Row) -> &'static [u8] {
        if self.subject == LENGTHS {
            row.by_length
        } else if self.subject == row.home {
            row.listed
        } else {
            &[]
        }
    }
}

/// The table of all calls and numbers; a number that was never answered is left out.
fn table(counts: &Counts) -> String {
    let mut text = String::from("\nanswers by number (0 done), positions by that beside them\n");
    for (row, counts) in ROWS.iter().zip(counts) {
        write!(text, "{:26}", row.name).unwrap();
        for (number, count) in counts.iter().enumerate().filter(|(_, &count)| count > 0) {
            write!(text, " {number}:{count}").unwrap();
        }
        text.push('\n');
    }
    let mut sums = [0; NUMBERS];
    let refusing = ROWS.iter().zip(counts).filter(|(row, _)| !is_position(row));
    for (_, counts) in refusing {
        sums.iter_mut()
            .zip(counts)
            .for_each(|(sum, count)| *sum += count);
    }
    text.push_str("each refusal over all calls:");
    for number in (1..NUMBERS).filter(|&number| listed(number as u8)) {
        write!(text, " {number}:{}", sums[number]).unwrap();
    }
    text + "\n"
}

/// Whether the call gives a position and so no number of its own.
fn is_position(row: &Row) -> bool {
    row.name.ends_with("_fault")
}

/// Whether any call may answer this number.
fn listed(number: u8) -> bool {
    let mut rows = ROWS.iter();
    rows.any(|row| row.listed.contains(&number) || row.by_length.contains(&number))
}
