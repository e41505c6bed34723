//! What a run is made of: its desks, its times and the samples under way.

use super::{books, boxes, cut, units};
use crate::call::Call;
use crate::opinion::{Caption, Tools};
use crate::player::BUFFER;
use crate::random::Random;
use second::{Lent, Second};

const LIMITS: [usize; 14] = [
    14, 14, 15, 16, 17, 20, 24, 50, 100, 255, 1000, 1033, 1034, 1400,
];
const BAD_LIMITS: [usize; 5] = [0, 13, 1401, 1500, usize::MAX];

pub struct Scene<'a> {
    pub calls: Vec<Call>,
    random: &'a mut Random,
    n: usize,
    /// A desk that is called more often than the others.
    busy: usize,
    times: Vec<u32>,
    step: u32,
    /// Whether most samples get all their parts undisturbed.
    calm: bool,
    /// Whether no sample cut by hand or by the writer ever gets its last part.
    greedy: bool,
    /// How many samples are sent by turns.
    by_turns: usize,
    /// The chance of damage to a payload, in percent.
    damage: usize,
    /// The payloads under way.
    flights: Vec<Flight>,
    /// Where each desk's descriptions are.
    newest: Vec<u8>,
    book: Vec<u8>,
}

/// The payloads of one sample that are still to come.
struct Flight {
    desk: usize,
    time: u32,
    payloads: Vec<Vec<u8>>,
}

impl<'a> Scene<'a> {
    pub fn new(n: usize, random: &'a mut Random) -> Scene<'a> {
        let any = random.number() as u32;
        let base = random.pick(&[0, any, u32::MAX - 9, u32::MAX - 3000]);
        let step: u32 = random.pick(&[1, 3, 1000]);
        let calm = random.percent(40);
        let count = if calm {
            300
        } else {
            random.pick(&[3, 8, 17, 18, 40])
        };
        Scene {
            calls: Vec::new(),
            n,
            busy: random.below(n),
            times: (0..count)
                .map(|i| base.wrapping_add(step.wrapping_mul(i)))
                .collect(),
            step,
            calm,
            greedy: !calm && random.percent(40),
            by_turns: random.pick(&[1, 2, 4, 100]),
            damage: if calm { 1 } else { random.pick(&[0, 5, 30]) },
            flights: Vec::new(),
            newest: random.bytes(n),
            book: books::good(random),
            random,
        }
    }

    /// Adds the calls of one happening.
    pub fn turn(&mut self) {
        match self.random.below(100) {
            0..=29 => self.send_flight(),
            30..=34 => self.write_flight(),
            35..=40 => self.cut_flight(),
            41..=60 if self.calm => self.send_flight(),
            41..=56 => self.send_common(),
            57..=60 => self.send_odd(),
            61..=62 => self.march(),
            63..=64 => self.send_live(),
            65..=75 => self.send_description(),
            76..=80 => self.give_up(),
            81..=87 => self.look(),
            88 => self.lend(),
            89..=90 => self.write_oddly(),
            91..=92 => self.describe(),
            93..=95 => self.check(),
            _ => self.walk(),
        }
    }

    fn desk(&mut self) -> usize {
        if self.random.percent(2) {
            return self.random.pick(&[self.n, self.n + 1, usize::MAX]);
        }
        let any = self.random.below(self.n);
        self.random.pick(&[self.busy, any])
    }

    fn time(&mut self) -> u32 {
        self.random.pick(&self.times)
    }

    fn sdur(&mut self) -> u32 {
        let any = self.random.number() as u32 >> 8;
        self.random
            .pick(&[0, self.step, self.step, 2 * self.step, 0xFF_FFFF, any])
    }

    fn limit(&mut self) -> usize {
        if self.random.percent(5) {
            return self.random.pick(&BAD_LIMITS);
        }
        self.random.pick(&LIMITS)
    }

    /// The length of an output that has to have `least` bytes.
    fn output(&mut self, least: usize) -> usize {
        let least = least.min(BUFFER);
        if self.random.percent(2) {
            return self.random.pick(&[0, 1, least.saturating_sub(1)]);
        }
        self.random.pick(&[least, least, BUFFER, BUFFER - 1])
    }

    /// Sends a payload, now and then at an unknown time as well, before or after: of that only
    /// descriptions are kept.
    fn receive(&mut self, desk: usize, time: u32, mut payload: Vec<u8>) {
        if self.random.percent(self.damage) {
            units::damage(&mut payload, self.random);
        }
        let mut times = vec![Some(time)];
        if self.random.percent(5) {
            times.insert(self.random.below(2), None);
        }
        for time in times {
            let output = self.output(1024);
            let payload = payload.clone();
            self.calls.push(Call::Receive {
                desk,
                time,
                payload,
                output,
            });
        }
    }

    /// Sends the next payload of a sample under way, now and then all of them as one.
    fn send_flight(&mut self) {
        if self.flights.is_empty() {
            return self.cut_flight();
        }
        let number = self.random.below(self.flights.len().min(self.by_turns));
        let flight = &mut self.flights[number];
        let (desk, time) = (flight.desk, flight.time);
        let payload = if self.random.percent(10) {
            flight.payloads.drain(..).collect::<Vec<_>>().concat()
        } else {
            flight.payloads.pop().unwrap_or_default()
        };
        if flight.payloads.is_empty() {
            self.flights.remove(number);
        }
        self.receive(desk, time, payload);
    }

    /// Gets payloads under way: shuffled, some dropped, some repeated.
    fn launch(&mut self, mut payloads: Vec<Vec<u8>>) {
        payloads.reverse();
        if self.random.percent(60) {
            self.random.shuffle(&mut payloads);
        }
        if self.random.percent(30) && !payloads.is_empty() {
            let repeated = self.random.below(payloads.len());
            payloads.insert(0, payloads[repeated].clone());
        }
        if self.random.percent(5) || self.greedy && payloads.len() > 1 {
            payloads.pop();
        }
        if payloads.is_empty() {
            return;
        }
        let (desk, time) = (self.desk(), self.time());
        self.flights.push(Flight {
            desk,
            time,
            payloads,
        });
    }

    /// Writes all payloads of a caption and gets them under way.
    fn write_flight(&mut self) {
        let sdur = self.sdur();
        let caption = cut::caption(sdur, self.random);
        let m = self.limit();
        let mut payloads = Vec::new();
        let mut count = 1;
        while payloads.len() < count {
            let k = payloads.len() + 1;
            let mut payload = vec![0; 1400];
            let written = Second::write(&caption, m, k, &mut payload);
            self.write(caption.clone(), m, k);
            let Ok((length, all)) = written else {
                return;
            };
            payload.truncate(length);
            payloads.push(payload);
            count = all;
        }
        self.launch(payloads);
    }

    fn write(&mut self, caption: Caption, m: usize, k: usize) {
        let output = self.output(m);
        self.calls.push(Call::Write {
            caption,
            m,
            k,
            output,
        });
    }

    fn cut_flight(&mut self) {
        let sdur = self.sdur();
        let units = match self.random.below(12) {
            0 => cut::in_one(sdur, self.random),
            _ => cut::by_hand(sdur, self.random),
        };
        self.launch(units);
    }

    /// Sends a few parts out of few, one payload.
    fn send_common(&mut self) {
        let count = self.random.pick(&[1, 1, 1, 2, 4]);
        let mut payload = Vec::new();
        for _ in 0..count {
            let sdur = self.random.pick(&[self.step, self.step, self.step, 0]);
            payload.extend(units::common_part(self.random, sdur));
        }
        let (desk, time) = (self.desk(), self.time());
        self.receive(desk, time, payload);
    }

    fn send_odd(&mut self) {
        let count = self.random.below(4);
        let payload: Vec<_> = (0..count).map(|_| units::odd(self.random)).collect();
        let (desk, time) = (self.desk(), self.time());
        self.receive(desk, time, payload.concat());
    }

    /// Finishes many times in a row with whole samples in one payload; TLEN falls anywhere, also
    /// inside a character.
    fn march(&mut self) {
        let mut payload = Vec::new();
        for _ in 0..self.random.pick(&[1, 2, 5, 15, 16, 17]) {
            let (u, data) = match self.random.below(12) {
                0 => (0, &b"n\xC3\xA9"[..]),
                1 => (1, &b"\x00n\xD8\x3D\xDE\x00"[..]),
                _ => (0, self.random.pick(&[&b""[..], b"a", b"abc"])),
            };
            let tlen = self.random.below(data.len() + 1) as u16;
            payload.extend(units::whole(u, 128, self.step, tlen, data));
        }
        let (desk, time) = (self.desk(), self.time());
        self.receive(desk, time, payload);
    }

    /// Sends a line of unknown duration, whole or in a part, and units of every kind behind it, one
    /// payload.
    fn send_live(&mut self) {
        let desk = self.desk();
        let mut payload = match self.random.below(2) {
            0 => units::whole(0, 128, 0, 1, b"a"),
            _ => units::common_part(self.random, 0),
        };
        for _ in 0..self.random.between(1, 5) {
            payload.extend(self.unit(desk));
        }
        let time = self.time();
        self.receive(desk, time, payload);
    }

    /// A unit of any kind.
    fn unit(&mut self, desk: usize) -> Vec<u8> {
        let sdur = self.random.pick(&[self.step, 0]);
        match self.random.below(5) {
            0 => units::common_part(self.random, sdur),
            1 => units::whole(0, 128, sdur, 1, self.random.pick(&[b"a", b"a", b"\xC3"])),
            2 => units::odd(self.random),
            3 => units::description(self.in_band(desk), b"d"),
            _ => units::unit(self.random.pick(&[0, 6, 7]), &[]),
        }
    }

    /// A value around the desk's newest, which it may become.
    fn in_band(&mut self, desk: usize) -> u8 {
        let by = self.random.pick(&[0, 0, 1, 1, 2, 62, 63, 64, 65, 66, 127]);
        let Some(newest) = self.newest.get_mut(desk) else {
            return by;
        };
        let sidx = newest.wrapping_add(by) % 128;
        if self.random.percent(40) {
            *newest = sidx;
        }
        sidx
    }

    fn send_description(&mut self) {
        let desk = self.desk();
        let mut payload = Vec::new();
        for _ in 0..self.random.between(1, 3) {
            let sidx = self.in_band(desk);
            let data = match self.random.below(20) {
                0 => vec![b'd'; 257],
                1 => vec![b'd'; 256],
                2 => vec![b'd'; 2],
                3 => b"e".to_vec(),
                _ => b"d".to_vec(),
            };
            payload.extend(units::description(sidx, &data));
        }
        let time = self.time();
        self.receive(desk, time, payload);
    }

    fn give_up(&mut self) {
        if self.greedy && self.random.percent(80) {
            return;
        }
        let (desk, time) = (self.desk(), self.time());
        self.calls.push(Call::GiveUp { desk, time });
    }

    fn look(&mut self) {
        let desk = self.desk();
        let near = usize::from(self.in_band(desk));
        let any = self.random.between(0, 257);
        let held = books::index(&self.book, self.random);
        let index = match self.random.below(20) {
            0..=7 => near,
            8..=13 => held,
            14..=18 => any,
            _ => usize::MAX,
        };
        if self.random.percent(10) {
            self.book = self.new_book();
        }
        let book = self.book.clone();
        self.calls.push(Call::Look { desk, index, book });
    }

    /// Calls with memory that set-up did not make. Where the call is let through nonetheless, it is
    /// left out when it is played.
    fn lend(&mut self) {
        let before = self.calls.len();
        match self.random.below(4) {
            0 | 1 => self.send_common(),
            2 => self.give_up(),
            _ => self.look(),
        }
        let lent = self.other_memory();
        if self.calls.len() > before {
            let call = self.calls.pop().map(Box::new);
            self.calls
                .extend(call.map(|call| Call::Lent { lent, call }));
        }
    }

    /// Another number in front, or too little of something, or both.
    fn other_memory(&mut self) -> Lent {
        let mut lent = Lent::needed(self.n);
        let way = self.random.below(4);
        if way != 0 {
            let n = lent.head;
            let any = self.random.number() as u32;
            let near = self.random.below(10) as u32;
            let heads = [
                0,
                9,
                near,
                near,
                n - 1,
                n + 1,
                n + 256,
                n << 16,
                u32::MAX,
                any,
            ];
            lent.head = self.random.pick(&heads);
        }
        if way < 2 {
            let length = match self.random.below(4) {
                0 => &mut lent.places,
                1 => &mut lent.rows,
                2 => &mut lent.marks,
                _ => &mut lent.stores,
            };
            let any = self.random.below(*length);
            // 10 is the head of the marks.
            *length = self.random.pick(&[*length - 1, any, 0, any.min(10)]);
        }
        lent
    }

    fn new_book(&mut self) -> Vec<u8> {
        if self.random.percent(60) {
            return books::damaged(self.random);
        }
        books::good(self.random)
    }

    /// Writes a payload of any number.
    fn write_oddly(&mut self) {
        let sdur = self.sdur();
        let caption = cut::caption(sdur, self.random);
        let m = self.limit();
        let k = self.random.pick(&[0, 1, 2, 3, 15, 16, 17, usize::MAX]);
        self.write(caption, m, k);
    }

    fn describe(&mut self) {
        let sidx = self.random.pick(&[0, 5, 127, 127, 128, 255, usize::MAX]);
        let length = self.random.pick(&[0, 1, 10, 11, 13, 96, 255, 256, 257]);
        let d = self.random.bytes(length);
        let m = self.limit();
        let k = self.random.pick(&[1, 1, 1, 0, 2, usize::MAX]);
        let output = self.output(m);
        self.calls.push(Call::Describe {
            sidx,
            d,
            m,
            k,
            output,
        });
    }

    fn check(&mut self) {
        let book = self.new_book();
        self.calls.push(Call::Check { book });
    }

    /// Walks over boxes from the front, and steps once from anywhere.
    fn walk(&mut self) {
        let modifiers = match self.random.below(2) {
            0 => boxes::good(self.random),
            _ => boxes::damaged(self.random),
        };
        let end = modifiers.len();
        let any = self.random.below(end + 1);
        let mut places = boxes::places(&modifiers);
        places.push(self.random.pick(&[any, any, end + 1, usize::MAX]));
        for at in places {
            let modifiers = modifiers.clone();
            self.calls.push(Call::Walk { modifiers, at });
        }
    }
}
