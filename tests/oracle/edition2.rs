//! Edition 2 of reorder, stereo and hybrid, written from documents 01 and 02 alone: nothing here is the given Rust's but the types and
//! the tables. Every f32 operation is rounded by itself, in the order that the documents name.
use crate::tables::{COS_N12, COS_N36, IMDCT_WIN, INTENSITY_STEREO_RATIOS, SCALE_FACTOR_BAND_INDICES};
use crate::types::BlockType;
use std::f32::consts::FRAC_1_SQRT_2;

/// Where a long band begins and ends among the 576 places.
fn long_band(table: usize, band: usize) -> (usize, usize) {
    let starts = &SCALE_FACTOR_BAND_INDICES[table].0;
    (starts[band] as usize, starts[band + 1] as usize)
}

/// Where a short band begins among the 576 places, and the width of each of its three windows.
fn short_band(table: usize, band: usize) -> (usize, usize) {
    let starts = &SCALE_FACTOR_BAND_INDICES[table].1;
    (3 * starts[band] as usize, (starts[band + 1] - starts[band]) as usize)
}

/// Each band's numbers come window by window and leave line by line, band 12's too: the first band always, a later one if it begins
/// below `count1`.
pub fn reorder(table: usize, kind: BlockType, count1: usize, samples: &mut [f32; 576]) {
    let first = match kind {
        BlockType::Short => 0,
        BlockType::Mixed => 3,
        _ => return,
    };
    let before = *samples;
    for band in first..13 {
        let (start, width) = short_band(table, band);
        if band == first || start < count1 {
            for win in 0..3 {
                for j in 0..width {
                    samples[start + 3 * j + win] = before[start + width * win + j];
                }
            }
        }
    }
}

/// Channel 1's factors, which are intensity's positions.
pub struct Positions<'a> {
    pub long: &'a [u8; 22],
    pub short: &'a [[u8; 3]; 13],
}

/// For each place the position that intensity is applied to it with. None where the band begins below channel 1's `count1`, where
/// the position is 7, and in bands that intensity never takes.
fn applied(table: usize, kind: BlockType, count1: usize, positions: &Positions) -> [Option<u8>; 576] {
    let (longs, shorts) = match kind {
        BlockType::Short => (0..0, 0..12),
        BlockType::Mixed => (0..8, 3..12),
        _ => (0..21, 0..0),
    };
    let applies = |start: usize, position: u8| start >= count1 && position != 7;
    let mut places = [None; 576];
    for band in longs {
        let (start, end) = long_band(table, band);
        let position = positions.long[band];
        if applies(start, position) {
            for i in start..end {
                places[i] = Some(position);
            }
        }
    }
    for band in shorts {
        let (start, width) = short_band(table, band);
        for win in 0..3 {
            let position = positions.short[band][win];
            if applies(start, position) {
                for j in 0..width {
                    places[start + 3 * j + win] = Some(position);
                }
            }
        }
    }
    places
}

/// What the old left number is multiplied by, for the left and for the right. A position above 7 has no ratios: the caller has refused it.
fn ratios(position: u8) -> [f32; 2] {
    match position {
        0..=5 => INTENSITY_STEREO_RATIOS[position as usize],
        6 => [1.0, 0.0],
        _ => panic!("intensity position {}", position),
    }
}

/// Each place is intensity's, or mid-side's below the larger `count1`, or stays. The block type is channel 0's.
pub fn stereo(table: usize, kind: BlockType, flags: u8, count1: [usize; 2], positions: &Positions, left: &mut [f32; 576], right: &mut [f32; 576]) {
    let (intensity, mid_side) = (flags & 1 != 0, flags & 2 != 0);
    let places = if intensity { applied(table, kind, count1[1], positions) } else { [None; 576] };
    let end = count1[0].max(count1[1]);
    for i in 0..576 {
        let (l, r) = (left[i], right[i]);
        if let Some(position) = places[i] {
            let [to_left, to_right] = ratios(position);
            left[i] = l * to_left;
            right[i] = l * to_right;
        } else if mid_side && i < end {
            left[i] = (l + r) * FRAC_1_SQRT_2;
            right[i] = (l - r) * FRAC_1_SQRT_2;
        }
    }
}

fn window_kind(kind: BlockType, subband: usize) -> usize {
    match kind {
        BlockType::Long => 0,
        BlockType::Start => 1,
        BlockType::Short => 2,
        BlockType::End => 3,
        BlockType::Mixed => if subband < 2 { 0 } else { 2 },
    }
}

/// A sum of products from +0.0 on, in the order in which they come.
fn sum(products: impl Iterator<Item = f32>) -> f32 {
    let mut sum = 0.0;
    for product in products {
        sum += product;
    }
    sum
}

/// A subband's 36 places. In kind 2 each starts from +0.0, and what the three windows have for it is added, window by window.
fn transformed(kind: usize, samples: &[f32]) -> [f32; 36] {
    let window = &IMDCT_WIN[kind];
    let mut places = [0f32; 36];
    if kind != 2 {
        for p in 0..36 {
            places[p] = sum((0..18).map(|m| samples[m] * COS_N36[m][p])) * window[p];
        }
        return places;
    }
    for i in 0..3 {
        for p in 0..12 {
            places[6 * i + 6 + p] += sum((0..6).map(|m| samples[i + 3 * m] * COS_N12[m][p])) * window[p];
        }
    }
    places
}

/// The output is the first half plus the stored overlap; the overlap becomes the second half.
pub fn hybrid(kind: BlockType, overlap: &mut [[f32; 18]; 32], samples: &mut [f32; 576]) {
    for subband in 0..32 {
        let own = &mut samples[18 * subband..18 * subband + 18];
        let places = transformed(window_kind(kind, subband), own);
        for i in 0..18 {
            own[i] = places[i] + overlap[subband][i];
            overlap[subband][i] = places[18 + i];
        }
    }
}
