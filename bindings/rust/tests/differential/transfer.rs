//! End to end, through the safe crate: messages cut one after the other, their frames in any
//! order that the window allows and any number of times, with refused calls between, come out
//! of the resequencer and of joining as they went in. In the short form messages are received only:
//! `plain` lays out the frames, which cutting refuses to make.

use pepperknoll::{
    cut, join, read_frame, Form, LinkNumber, Outcome, Packet, PacketNumber, Read, Refusal,
    Resequencer, Start,
};

use crate::support::{Random, Trial};

/// So far a frame may be ahead of the number expected, and so far behind it.
const AHEAD: usize = 31;
const BEHIND: usize = 32;

pub fn run(trial: &mut Trial) {
    for _ in 0..trial.times(400, 20_000) {
        carry(&mut trial.random);
    }
}

fn carry(random: &mut Random) {
    let form = match random.below(3) {
        0 => Form::ShortUplink,
        1 => Form::LongUplink,
        _ => Form::LongDownlink(1 + random.below(16) as u8),
    };
    let messages: Vec<Vec<u8>> = (0..1 + random.below(4))
        .map(|_| {
            let longest = random.pick(&[1, 60, 700, 4097]);
            let length = random.below(longest);
            random.bytes(length)
        })
        .collect();
    let frames = send(random, form, &messages);
    let handed = receive(random, form, &frames);
    assert_eq!(handed.len(), frames.len());
    assert_eq!(joined(form, &frames, &handed), messages);
}

/// The frames of all messages, each made from the numbers after those of the one before.
fn send(random: &mut Random, form: Form, messages: &[Vec<u8>]) -> Vec<Vec<u8>> {
    let mut frames: Vec<Vec<u8>> = Vec::new();
    let (ps, ch) = (random.below(16), random.byte() & 15);
    for message in messages {
        let start = Start {
            sn: LinkNumber((frames.len() % 64) as u8),
            ps: PacketNumber(((ps + frames.len()) % 16) as u8),
            pr: PacketNumber(random.byte() & 15),
            ch,
        };
        frames.extend(frames_of(form, start, message));
    }
    frames
}

/// The frames of one message: cut in a long form, laid out in the short one.
fn frames_of(form: Form, start: Start, message: &[u8]) -> Vec<Vec<u8>> {
    let (mut out, mut lengths) = (vec![0; 10_000], vec![0; 600]);
    let cut = cut(form, start, message, &mut out, &mut lengths).map(|made| made.frames);
    let frames = match form {
        Form::ShortUplink => {
            assert_eq!(cut, Err(Refusal::ShortForm));
            laid_out(start, message, &mut out, &mut lengths)
        }
        _ => cut.unwrap(),
    };
    let mut rest = &out[..];
    let one = |&length| {
        let (frame, after) = rest.split_at(length);
        rest = after;
        frame.to_vec()
    };
    lengths[..frames].iter().map(one).collect()
}

/// The frames of a message in the short form, as others may send them; answers how many.
fn laid_out(start: Start, message: &[u8], out: &mut [u8], lengths: &mut [usize]) -> usize {
    let start = plain::message::Start {
        sn: start.sn.0,
        ps: start.ps.0,
        pr: start.pr.0,
        ch: start.ch,
    };
    let form = plain::frame::Form::ShortUplink;
    let made = plain::message::lay_out(form, start, message, out, lengths);
    made.unwrap().frames
}

/// Lets the frames arrive until each has; gives the places of those handed on.
fn receive(random: &mut Random, form: Form, frames: &[Vec<u8>]) -> Vec<usize> {
    let mut link = Resequencer::fresh();
    let mut arrived = vec![false; frames.len()];
    let mut handed = Vec::new();
    let mut expected = 0;
    while expected < frames.len() {
        refused_calls(random, &mut link);
        let first = expected.saturating_sub(BEHIND);
        let last = (expected + AHEAD).min(frames.len() - 1);
        // mostly from the number expected on, so that there is an end
        let from = if random.one_in(4) { first } else { expected };
        let place = from + random.below(last - from + 1);
        let read = read_frame(form, &frames[place]).unwrap();
        let Read::Packet(Packet::Data { sn, .. }, _) = read else {
            panic!("frame {place} is {read:?}");
        };
        let outcome = link.arrive(sn, place as u16).unwrap();
        match outcome {
            Outcome::HandedOn(tickets) => handed.extend(tickets.iter().map(|&t| usize::from(t))),
            Outcome::Held => assert!(place > expected && !arrived[place]),
            Outcome::Old => assert!(place < expected),
            Outcome::Duplicate => assert!(place > expected && arrived[place]),
        }
        arrived[place] = true;
        while expected < frames.len() && arrived[expected] {
            expected += 1;
        }
        // at every moment: the frames up to the lowest that has not arrived
        assert!(handed.iter().copied().eq(0..expected), "{handed:?}");
    }
    handed
}

/// An arrival whose SN no field holds, or the end of a clock that does not run.
fn refused_calls(random: &mut Random, link: &mut Resequencer) {
    if random.one_in(8) {
        let sn = LinkNumber(64 + random.below(192) as u8);
        assert_eq!(
            link.arrive(sn, random.word() as u16),
            Err(Refusal::OutOfRange)
        );
    }
    if random.one_in(8) {
        let sn = random.below(64) as u8;
        if link.clocks() >> sn & 1 == 0 {
            assert_eq!(link.clock_end(LinkNumber(sn)), Err(Refusal::NoClock));
        }
    }
}

/// The messages in the frames at these places: each ends with the first frame whose M is 0.
fn joined(form: Form, frames: &[Vec<u8>], places: &[usize]) -> Vec<Vec<u8>> {
    let mut messages = Vec::new();
    let (mut lengths, mut bytes) = (Vec::new(), Vec::new());
    for &place in places {
        let frame = &frames[place];
        lengths.push(frame.len());
        bytes.extend_from_slice(frame);
        let read = read_frame(form, frame).unwrap();
        if matches!(read, Read::Packet(Packet::Data { m: false, .. }, _)) {
            let mut out = vec![0; 4096];
            let length = join(form, &lengths, &bytes, &mut out).unwrap();
            out.truncate(length);
            messages.push(out);
            lengths.clear();
            bytes.clear();
        }
    }
    messages
}
