//! Calls of one's own choice for images, on libm25p.a and on the model; a difference ends the test.

use rig::compare::images::{step, Asked, Images, Lent};
use rig::compare::SPARE;
use rig::image_model::Call;
use rig::model::Paper;

/// What stands in buffers before a call, and behind what is lent.
pub const UNTOUCHED: u8 = 0x55;

/// A call with an image, and an array or a list, of these contents and these lengths.
pub fn asked(call: Call, part: u32, bytes: [&[u8]; 2], lengths: [usize; 2]) -> Asked {
    let [image, other] = [0, 1].map(|which| {
        let mut bytes = bytes[which].to_vec();
        bytes.resize(lengths[which] + SPARE, UNTOUCHED);
        Lent { bytes, range: 0..lengths[which] }
    });
    Asked { call, part, image, other, done: None }
}

/// The call on library and model: the 64 bits, and what the library left.
pub fn compared(asked: &Asked) -> (u64, Asked) {
    let left = step(asked, &Paper, &mut Images::default());
    left.unwrap_or_else(|difference| panic!("{difference}"))
}
