//! Lines that are none, and good ones that look odd.

use super::odd_lines::ODD_LINES;
use super::teller::Teller;

impl Teller {
    pub fn say_odd_lines(&mut self) {
        for _ in 0..self.random.between(1, 5) {
            match self.random.weighted(&[70, 15, 10, 1]) {
                0 => {
                    let line = self.random.pick(&ODD_LINES);
                    self.say(line);
                }
                1 => self.say_random_bytes(),
                2 => self.spoil_a_line(),
                _ => self.say_a_long_line(),
            }
        }
        self.say("sum tables");
    }

    fn say_random_bytes(&mut self) {
        let line: Vec<u8> = (0..self.random.below(30)).map(|_| self.a_byte()).collect();
        self.say(line);
    }

    /// One of the lines said before, with one byte more, less or other.
    fn spoil_a_line(&mut self) {
        let choice = self.random.index(self.lines.len());
        let mut line = self.lines[choice].clone();
        if line.is_empty() || line.len() > 100 {
            return;
        }
        let place = self.random.index(line.len());
        let byte = match self.random.chance(70) {
            true => self.random.pick(b"0123456789 az-"),
            false => self.a_byte(),
        };
        match self.random.below(3) {
            0 => line.insert(place, byte),
            1 => line[place] = byte,
            _ => {
                line.remove(place);
            }
        }
        // How much longer than the tables' length their buffer is may differ between programs.
        if !line.windows(6).any(|part| part == b"tables") {
            self.say(line);
        }
    }

    fn say_a_long_line(&mut self) {
        let length = self.random.pick(&[300, 5_000, 70_000]);
        let (start, filling) = self.random.pick(&[
            ("read 0 0 ", b' '),
            ("free ", b'0'),
            ("writes 0 0 1 ", b'0'),
            ("up 0 1 ", b'0'),
            ("write_signed 0 0 1 -", b'0'),
            ("rename 1 1 a", b'b'),
            ("#", b'#'),
        ]);
        let mut line = start.as_bytes().to_vec();
        line.resize(length, filling);
        self.say(line);
    }
}
