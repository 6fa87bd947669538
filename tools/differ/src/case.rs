//! One image of a seed: a recording, the edits that damage it, and the block size that it is converted with.
use crate::blocks::Image;
use crate::edit::{self, Edit};
use crate::generate::{self, SIZES};
use crate::photos::aim;
use crate::random::Random;
use crate::types;

pub struct Case {
    pub sound: Image,
    pub edits: Vec<Edit>,
    pub size: u64,
}

impl Case {
    pub fn of(seed: u64, k: u64) -> Case {
        let mut random = Random::of(seed, k);
        let sound = generate::image(&mut random);
        let edits = edit::some(&sound, &mut random);
        Case { sound, edits, size: random.pick(&SIZES) }
    }

    /// The same with groups that share clocks on purpose.
    pub fn clocks(seed: u64, k: u64) -> Case {
        let mut random = Random::of(seed ^ 0x636c_6f63_6b73, k);
        let sound = generate::clocks(&mut random);
        let edits = edit::some(&sound, &mut random);
        Case { sound, edits, size: random.pick(&SIZES) }
    }

    /// The same with channels that refer to attachments on purpose.
    pub fn photos(seed: u64, k: u64) -> Case {
        let mut random = Random::of(seed ^ 0x7068_6f74_6f73, k);
        let sound = generate::photos(&mut random);
        let mut edits = edit::some(&sound, &mut random);
        edits.extend(aim::some(&sound, &mut random));
        if random.percent(40) {
            edits.extend(types::aim::some(&sound, &mut random));
        }
        Case { sound, edits, size: random.pick(&SIZES) }
    }

    pub fn bytes(&self) -> Vec<u8> {
        edited(&self.sound.bytes, &self.edits)
    }
}

pub fn edited(sound: &[u8], edits: &[Edit]) -> Vec<u8> {
    let mut bytes = sound.to_vec();
    edits.iter().for_each(|e| e.apply(&mut bytes));
    bytes
}
