//! How rough a random file is.

use crate::rng::Rng;

/// How a file's host, endpoints and firmware behave, in percent.
pub struct Temper {
    pub busy: usize,
    pub error: usize,
    pub above_packet_size: usize,
    pub invalid: usize,
    pub ragged: usize,
    pub glued: usize,
    pub without_data: usize,
    pub stray: usize,
    pub early_status: usize,
}

impl Temper {
    pub fn some(rng: &mut Rng) -> Temper {
        Temper {
            busy: rng.pick(&[0, 5, 15, 40]),
            error: rng.pick(&[0, 5, 15, 30]),
            above_packet_size: rng.pick(&[0, 0, 3, 10]),
            invalid: rng.pick(&[0, 5, 25]),
            ragged: rng.pick(&[0, 20, 60]),
            glued: rng.pick(&[0, 10, 50, 80]),
            without_data: rng.pick(&[10, 35, 60]),
            stray: rng.pick(&[2, 10, 30]),
            early_status: rng.pick(&[5, 20, 50]),
        }
    }

    pub fn calm() -> Temper {
        Temper {
            busy: 0,
            error: 0,
            above_packet_size: 0,
            invalid: 0,
            ragged: 0,
            glued: 0,
            without_data: 97,
            stray: 0,
            early_status: 50,
        }
    }
}
