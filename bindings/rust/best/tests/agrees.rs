//! The fast version against the plain one: the same answers, the same lent memory.

use plain::frame::Form;
use plain::message::Start;
use plain::packet::Packet;
use plain::resequencer::PLACES;
use plain::route::LOST;
use plain::Refusal;

/// Splitmix64.
struct Random(u64);

impl Random {
    fn next(&mut self) -> u64 {
        self.0 = self.0.wrapping_add(0x9E37_79B9_7F4A_7C15);
        let mut z = self.0;
        z = (z ^ z >> 30).wrapping_mul(0xBF58_476D_1CE4_E5B9);
        z = (z ^ z >> 27).wrapping_mul(0x94D0_49BB_1331_11EB);
        z ^ z >> 31
    }

    fn below(&mut self, bound: usize) -> usize {
        (self.next() % bound as u64) as usize
    }

    fn one_in(&mut self, bound: usize) -> bool {
        self.below(bound) == 0
    }

    fn byte(&mut self) -> u8 {
        self.next() as u8
    }

    /// A value that fits `bits` bits, but for one in 32.
    fn field(&mut self, bits: u32) -> u8 {
        let byte = self.byte();
        if self.one_in(32) {
            byte
        } else {
            byte & ((1 << bits) - 1)
        }
    }

    /// How many places for results are lent: mostly as many as are needed, else fewer or more.
    fn places(&mut self, needed: usize) -> usize {
        match self.below(16) {
            0 => needed - 1,
            1 => self.below(needed),
            2 => needed + 1,
            3 => needed + self.below(needed),
            _ => needed,
        }
    }

    fn form(&mut self) -> Form {
        match self.below(4) {
            0 => Form::ShortUplink,
            1 => Form::LongUplink,
            _ => Form::LongDownlink(self.below(18) as u8),
        }
    }
}

/// One call on a sending end, of both.
fn send_or_take(bits: u32, call: usize, pr: u8) {
    let [edge, next, ..] = bits.to_le_bytes();
    let held_off = bits >> 16 & 1 == 1;
    let mut fast = best::window::Sender {
        edge,
        next,
        held_off,
    };
    let mut plain = plain::window::Sender {
        edge,
        next,
        held_off,
    };
    match call {
        0 => assert_eq!(fast.send(), plain.send()),
        1 => assert_eq!(fast.acknowledge(pr), plain.acknowledge(pr)),
        2 => assert_eq!(fast.ready(pr), plain.ready(pr)),
        3 => assert_eq!(fast.not_ready(pr), plain.not_ready(pr)),
        _ => assert_eq!(fast.reject(pr), plain.reject(pr)),
    }
    assert_eq!(
        [fast.edge, fast.next, fast.held_off.into()],
        plain.to_bytes()
    );
}

#[test]
fn windows() {
    for bits in 0..1 << 17 {
        send_or_take(bits, 0, 0);
        let small = bits & 0x11F1F == bits;
        let prs = if small { 0..18 } else { 15..17 };
        for (call, pr) in (1..=4).flat_map(|call| prs.clone().map(move |pr| (call, pr))) {
            send_or_take(bits, call, pr);
        }
    }
    for bits in 0..1u32 << 18 {
        let [expected, count, ps] = [0, 6, 12].map(|shift| (bits >> shift & 31) as u8);
        let mark = bits >> 5 & 1 == 1;
        let mut fast = best::window::Receiver {
            expected,
            mark,
            count,
        };
        let mut plain = plain::window::Receiver {
            expected,
            mark,
            count,
        };
        assert_eq!(fast.receive(ps), plain.receive(ps));
        assert_eq!(
            [fast.expected, fast.mark.into(), fast.count],
            plain.to_bytes()
        );
    }
}

/// One event on both; answers and memory must agree.
fn event(random: &mut Random, state: &mut plain::resequencer::Resequencer) {
    let mut fast = best::resequencer::Resequencer::from_plain(state);
    let mut out = vec![0xABCD; random.places(PLACES)];
    let mut fast_out = out.clone();
    let ticket = random.next() as u16;
    if random.one_in(6) && state.clocks != 0 {
        let turned = state.clocks.rotate_right(u32::from(ticket) & 63);
        let some = (turned.trailing_zeros() + u32::from(ticket)) as u8 & 63;
        let sn = if random.one_in(8) {
            random.byte()
        } else {
            some
        };
        assert_eq!(
            fast.clock_end(sn, &mut fast_out),
            state.clock_end(sn, &mut out)
        );
    } else {
        let distance = match random.below(8) {
            0 => 29 + random.below(5) as u8,
            1 => random.byte() & 31,
            _ => random.below(5) as u8,
        };
        let near = state.nesn.wrapping_add(distance) & 63;
        let sn = if random.one_in(64) {
            random.byte()
        } else {
            near
        };
        assert_eq!(
            fast.arrive(sn, ticket, &mut fast_out),
            state.arrive(sn, ticket, &mut out)
        );
    }
    assert_eq!(&fast.to_plain(), state);
    assert_eq!(fast_out, out);
}

#[test]
fn resequencer() {
    let mut random = Random(1);
    let mut state = plain::resequencer::Resequencer::fresh();
    for _ in 0..400_000 {
        event(&mut random, &mut state);
        assert!(state.in_order());
        if random.one_in(4) {
            let mut bytes = state.to_bytes();
            for _ in 0..=random.below(2) {
                let front = if random.one_in(2) { 18 } else { 146 };
                bytes[random.below(front)] ^= 1 << random.below(8);
            }
            let mut damaged = plain::resequencer::Resequencer::from_bytes(&bytes);
            event(&mut random, &mut damaged);
        }
    }
}

/// How many bits each field of a kind has, on the downlink; the uplink has other places for two.
const WIDTHS: [&[u32]; 12] = [
    &[1, 6, 4, 4, 4],
    &[2, 6, 4, 4, 8, 8, 8, 1, 1],
    &[2, 6, 4, 4, 8],
    &[1, 6, 0, 4, 4, 8, 1, 2, 1],
    &[2, 6, 4, 4, 8, 1, 1],
    &[6, 4, 4],
    &[6, 4, 4],
    &[6, 4, 4],
    &[1, 1, 6, 4],
    &[6, 4],
    &[6, 4, 8, 8],
    &[6, 4],
];

/// A packet of any kind but ROUTE. Flags are good, else there is no packet at all.
fn packet(random: &mut Random, form: Form) -> Packet {
    let kind = random.below(WIDTHS.len());
    let uplink = !matches!(form, Form::LongDownlink(_));
    let mut bytes = vec![kind as u8];
    for (at, &bits) in WIDTHS[kind].iter().enumerate() {
        let bits = match (kind, at, uplink) {
            (3, 2, true) => 2,                // TC
            (3, 3, true) | (4, 0, true) => 0, // CH, TC
            _ => bits,
        };
        bytes.push(match bits {
            1 => random.byte() & 1,
            8 => random.byte(),
            _ => random.field(bits),
        });
    }
    bytes.resize(10, 0);
    Packet::from_bytes(&bytes).expect("a packet")
}

/// Writing agrees and, beside it, reading: a frame that was written, or one of the short form,
/// which is only laid out.
#[test]
fn frames() {
    let (mut random, mut short) = (Random(2), Short::default());
    for _ in 0..300_000 {
        let form = random.form();
        let packet = packet(&mut random, form);
        let longest = [12, 40, 170][random.below(3)];
        let most = if packet.has_user() || random.one_in(8) {
            longest
        } else {
            1
        };
        let user: Vec<u8> = (0..random.below(most)).map(|_| random.byte()).collect();
        let room = if random.one_in(4) {
            random.below(170)
        } else {
            180
        };
        let (mut fast, mut plain) = (vec![0xEE; room], vec![0xEE; room]);
        let mut made = plain::frame::write(form, &packet, &user, &mut plain);
        assert_eq!(best::frame::write(form, &packet, &user, &mut fast), made);
        assert_eq!(fast, plain);
        if form == Form::ShortUplink {
            let laid_out = plain::frame::lay_out(form, &packet, &user, &mut plain);
            short.saw(made, laid_out);
            made = laid_out;
        }
        if let Ok(length) = made {
            plain.truncate(length);
            read_and_damage(&mut random, form, plain);
        }
    }
    short.finish(Refusal::PacketTooLong);
}

/// The same of ROUTE: table and optional data of any length.
#[test]
fn routes_in_frames() {
    let (mut random, mut short) = (Random(5), Short::default());
    for _ in 0..100_000 {
        let (form, init) = (random.form(), random.one_in(2));
        let some_bytes = |random: &mut Random| {
            let longest = [4, 30, 160, 300][random.below(4)];
            let length = random.below(longest);
            (0..length).map(|_| random.byte()).collect::<Vec<u8>>()
        };
        let table = some_bytes(&mut random);
        let data = (!random.one_in(3)).then(|| some_bytes(&mut random));
        let room = if random.one_in(4) {
            random.below(170)
        } else {
            180
        };
        let (mut fast, mut plain) = (vec![0xEE; room], vec![0xEE; room]);
        let data = data.as_deref();
        let mut made = plain::route_packet::write(form, init, &table, data, &mut plain);
        let fast_made = best::frame::write_route(form, init, &table, data, &mut fast);
        assert_eq!(fast_made, made);
        assert_eq!(fast, plain);
        if form == Form::ShortUplink {
            let laid_out = plain::route_packet::lay_out(form, init, &table, data, &mut plain);
            short.saw(made, laid_out);
            made = laid_out;
        }
        if let Ok(length) = made {
            plain.truncate(length);
            read_and_damage(&mut random, form, plain);
        }
    }
    short.out_of_range = 50; // the short form itself is in range
    short.finish(Refusal::PacketTooLong);
}

/// Any first byte and any bytes after it, so that every kind is met with every fill.
#[test]
fn frames_of_any_bytes() {
    let mut random = Random(6);
    for turn in 0..400_000 {
        let form = random.form();
        let segment = form.sizes().map_or(10, |sizes| sizes.segment);
        let length = segment * (1 + random.below(3));
        let mut frame: Vec<u8> = (0..length).map(|_| random.byte()).collect();
        frame[0] = (turn % 0x84) as u8;
        if random.one_in(2) {
            frame[1] &= 0x3F;
            frame[2] &= [0xF0, 0x3F, 0xFF][random.below(3)];
            frame[3 + random.below(4)..].fill(0);
        }
        read_and_damage(&mut random, form, frame);
    }
}

fn read_and_damage(random: &mut Random, form: Form, mut frame: Vec<u8>) {
    for _ in 0..8 {
        let read = plain::frame::read(form, &frame);
        assert_eq!(best::frame::read(form, &frame), read.map_err(Refusal::from));
        let at = read.map_or_else(|fault| fault.at, |_| 0);
        assert_eq!(best::frame::fault(form, &frame), at, "{frame:x?}");
        let at = random.below(frame.len());
        frame[at] ^= 1 << random.below(8);
        if random.one_in(8) {
            frame.resize(random.below(4) * 10 + 10 + random.below(2), 0);
        }
    }
}

/// How often the short form was refused, by what the layout alone would have said.
#[derive(Default)]
struct Short {
    good: usize,
    refused: Vec<Refusal>,
    out_of_range: usize,
}

impl Short {
    /// Takes an answer in the short form, and what the layout alone says to the same.
    fn saw<T>(&mut self, answer: Result<T, Refusal>, laid_out: Result<T, Refusal>) {
        match (answer.err(), laid_out.err()) {
            (Some(Refusal::OutOfRange), Some(Refusal::OutOfRange)) => self.out_of_range += 1,
            (Some(Refusal::ShortForm), None) => self.good += 1,
            (Some(Refusal::ShortForm), Some(other)) => self.refused.push(other),
            (other, _) => panic!("{other:?} in the short form"),
        }
    }

    /// Each case has to have come often: 1, and 23 before one refusal, before 5, before none.
    fn finish(self, other: Refusal) {
        let times = |refusal| self.refused.iter().filter(|&&r| r == refusal).count();
        for count in [
            self.good,
            self.out_of_range,
            times(other),
            times(Refusal::OutputTooShort),
        ] {
            assert!(count >= 50, "{count} times only");
        }
    }
}

/// A message of about as many whole shares of a form, or about the longest.
fn some_message(random: &mut Random, form: Form) -> Vec<u8> {
    let share = form.sizes().map_or(20, |sizes| sizes.largest - 3);
    let near = share * random.below(5) + random.below(3);
    let length = if random.one_in(50) {
        4090 + random.below(10)
    } else {
        near.saturating_sub(1)
    };
    (0..length).map(|_| random.byte()).collect()
}

/// Cutting agrees and, beside it, joining: frames that were cut, or those of the short form, which
/// are only laid out.
#[test]
fn messages() {
    let (mut random, mut short) = (Random(3), Short::default());
    for _ in 0..40_000 {
        let form = random.form();
        let message = some_message(&mut random, form);
        let sn = random.field(6);
        let [ps, pr, ch] = [(); 3].map(|()| random.field(4));
        let start = Start { sn, ps, pr, ch };
        let room = if random.one_in(4) {
            random.below(900)
        } else {
            6000
        };
        let places = if random.one_in(4) {
            random.below(6)
        } else {
            600
        };
        let (mut fast, mut plain) = (vec![0xEE; room], vec![0xEE; room]);
        let (mut fast_lengths, mut lengths) = (vec![77; places], vec![77; places]);
        let mut made = plain::message::cut(form, start, &message, &mut plain, &mut lengths);
        let fast_made = best::message::cut(form, start, &message, &mut fast, &mut fast_lengths);
        assert_eq!(fast_made, made);
        assert!(fast == plain && fast_lengths == lengths);
        if form == Form::ShortUplink {
            let laid_out = plain::message::lay_out(form, start, &message, &mut plain, &mut lengths);
            short.saw(made, laid_out);
            made = laid_out;
        }
        if let Ok(made) = made {
            plain.truncate(made.bytes);
            lengths.truncate(made.frames);
            join(&mut random, form, lengths, plain);
        }
    }
    short.finish(Refusal::MessageTooLong);
}

fn join(random: &mut Random, form: Form, mut lengths: Vec<usize>, mut frames: Vec<u8>) {
    for _ in 0..4 {
        let room = if random.one_in(4) {
            random.below(700)
        } else {
            5000
        };
        let (mut fast, mut plain) = (vec![0xEE; room], vec![0xEE; room]);
        let answer = plain::message::join(form, &lengths, &frames, &mut plain);
        assert_eq!(
            best::message::join(form, &lengths, &frames, &mut fast),
            answer.map_err(Refusal::from)
        );
        assert_eq!(fast, plain);
        let at = answer.map_or_else(|fault| fault.at, |_| 0);
        assert_eq!(best::message::fault(form, &lengths, &frames, room), at);
        match random.below(6) {
            0 => {
                let at = random.below(lengths.len());
                lengths[at] ^= [1, 10, 7, usize::MAX][random.below(4)];
            }
            1 => frames.truncate(random.below(frames.len() + 1)),
            _ => {
                let start = lengths[..random.below(lengths.len())].iter().sum::<usize>();
                let at = start + random.below(10);
                if let Some(byte) = frames.get_mut(at) {
                    *byte ^= 1 << random.below(8);
                }
            }
        }
        if lengths.iter().any(|&length| length > frames.len()) {
            break;
        }
    }
}

#[test]
fn routes_and_choice() {
    let mut random = Random(4);
    let mut table = plain::route::Table::empty();
    for _ in 0..200_000 {
        let mut list = Vec::new();
        let entries = if random.one_in(20) { 60 } else { 14 };
        for _ in 0..random.below(entries) {
            let nd = random.below(8);
            list.push(random.byte() & 0x38 | nd as u8);
            list.extend((0..=nd).map(|_| random.byte() & 0x8F));
        }
        if random.one_in(8) {
            list.truncate(random.below(list.len() + 1));
        }
        let mut fast = best::route::Table { codes: table.codes };
        let mut lost = vec![9; random.places(LOST)];
        let mut fast_lost = lost.clone();
        let answer = table.update(&list, &mut lost);
        assert_eq!(fast.update(&list, &mut fast_lost), answer);
        assert!(fast.codes == table.codes && fast_lost == lost);
        let (address, failed) = (random.byte() & 0x8F, random.next() as u16);
        let last = (!random.one_in(3)).then(|| random.below(18) as u16);
        assert_eq!(
            fast.choose(address, last, failed),
            table.choose(address, last, failed)
        );
    }
}
