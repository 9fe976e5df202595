//! The endless mix of all kinds of texts.

use crate::damage;
use crate::faults;
use crate::fixtures;
use crate::junk;
use crate::limits;
use crate::policy;
use crate::rng::Rng;

pub struct Mix {
    rng: Rng,
    fixtures: Vec<&'static str>,
}

impl Mix {
    pub fn new(seed: u64) -> Mix {
        Mix {
            rng: Rng::new(seed),
            fixtures: fixtures::fixtures(),
        }
    }

    /// Shares in a hundred; texts at the limits are few because they are long.
    fn text(&mut self) -> Vec<u8> {
        match self.rng.below(100) {
            0..=3 => self.fixture(),
            4..=21 => self.sound_policy(),
            22..=59 => self.faulty_policy(),
            60..=79 => self.damaged(),
            80..=85 => self.any_tree(),
            86..=89 => junk::tokens(&mut self.rng),
            90..=95 => junk::letters(&mut self.rng),
            96 | 97 => limits::text(&mut self.rng),
            _ => self.wide_characters(),
        }
    }

    fn fixture(&mut self) -> Vec<u8> {
        let text = *self.rng.pick(&self.fixtures);
        if self.rng.one_in(2) {
            text.as_bytes().to_vec()
        } else {
            fixtures::without_blanks(text)
        }
    }

    fn sound_policy(&mut self) -> Vec<u8> {
        let mut text = policy::random_policy(&mut self.rng).written(&mut self.rng);
        if self.rng.one_in(8) {
            damage::add_tail(&mut self.rng, &mut text);
        }
        text
    }

    fn faulty_policy(&mut self) -> Vec<u8> {
        let mut tree = policy::random_policy(&mut self.rng);
        for _ in 0..*self.rng.pick(&[1, 1, 1, 2, 3]) {
            faults::spoil(&mut self.rng, &mut tree);
        }
        tree.written(&mut self.rng)
    }

    fn damaged(&mut self) -> Vec<u8> {
        let mut text = match self.rng.below(4) {
            0 => self.fixture(),
            1 => self.any_tree(),
            2 => self.faulty_policy(),
            _ => self.sound_policy(),
        };
        damage::damage(&mut self.rng, &mut text);
        text
    }

    fn any_tree(&mut self) -> Vec<u8> {
        let levels = self.rng.between(0, 5);
        junk::value(&mut self.rng, levels).written(&mut self.rng)
    }

    fn wide_characters(&mut self) -> Vec<u8> {
        let mut text = match self.rng.below(3) {
            0 => junk::letters(&mut self.rng),
            1 => self.any_tree(),
            _ => self.sound_policy(),
        };
        damage::widen(&mut self.rng, &mut text);
        text
    }
}

impl Iterator for Mix {
    type Item = Vec<u8>;

    fn next(&mut self) -> Option<Vec<u8>> {
        Some(self.text())
    }
}
