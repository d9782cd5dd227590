//! The whole back end over records of document 01, as the program `render` does it: records on standard input, the outputs' f32 bits on
//! standard output, a line on standard error for each refusal; or instead of both, for each record a line with its two peaks.
//!
//! In an entry the edition's number stands before the record. A run of records is at edition 1.
//!
//! Reorder, stereo, antialias, hybrid, inversion and synthesis are the given Rust's; reorder, stereo and hybrid of edition 2 are edition2.rs's. The given files read no records, refuse
//! nothing and requantize with the platform's `powf`; so the reading, the refusals and the requantize here are written from
//! document 01 alone, and the powers and gains are found by whole-number comparisons.
use crate::types::*;
use crate::{edition2, requantize, stereo, synthesis, tables};
use std::io::{self, BufReader, BufWriter, Read, Write};

const RECORD: usize = 2448;
const PART: usize = 1222;
const MOST_RECORDS: usize = 65535;

/// One channel's history: the overlap of hybrid synthesis and the blocks of subband synthesis.
struct Channel {
    store: [[f32; 18]; 32],
    blocks: [f32; 1024],
}

impl Channel {
    fn fresh() -> Self {
        Channel { store: [[0f32; 18]; 32], blocks: [0f32; 1024] }
    }

    fn finite(&self) -> bool {
        self.store.iter().flatten().chain(self.blocks.iter()).all(|x| x.is_finite())
    }
}

struct Part {
    kind: BlockType,
    gain: i32,
    scale: bool,
    preflag: bool,
    subblock: [u8; 3],
    long: [u8; 22],
    short: [[u8; 3]; 13],
    count1: usize,
    numbers: [i16; 576],
}

fn part(b: &[u8]) -> Part {
    let mut p = Part {
        kind: [BlockType::Long, BlockType::Short, BlockType::Mixed, BlockType::Start, BlockType::End][b[0] as usize],
        gain: i32::from(b[1]),
        scale: b[2] & 1 != 0,
        preflag: b[2] & 2 != 0,
        subblock: [b[3], b[4], b[5]],
        long: [0; 22],
        short: [[0; 3]; 13],
        count1: usize::from(u16::from_le_bytes([b[68], b[69]])),
        numbers: [0; 576],
    };
    p.long.copy_from_slice(&b[6..28]);
    for i in 0..39 {
        p.short[i / 3][i % 3] = b[28 + i];
    }
    for i in 0..576 {
        p.numbers[i] = i16::from_le_bytes([b[70 + 2 * i], b[71 + 2 * i]]);
    }
    p
}

/// Refusal 12 in one part.
fn wrong_bytes(b: &[u8]) -> bool {
    b[0] > 4 || b[2] > 3 || b[67] != 0
}

/// Refusal 8, from the sentence on intensity: the bands it would apply to, and their positions, channel 0's or in edition 2 channel 1's.
fn position_too_high(edition: u8, table: usize, left: &Part, right: &Part) -> bool {
    let (long, short) = &tables::SCALE_FACTOR_BAND_INDICES[table];
    let positions = if edition == 2 { right } else { left };
    let applies = |start: u32| start as usize >= right.count1;
    let longs = |n: usize| (0..n).any(|k| applies(long[k]) && positions.long[k] > 7);
    let shorts = |from: usize| (from..12).any(|k| applies(3 * short[k]) && positions.short[k].iter().any(|&p| p > 7));
    match left.kind {
        BlockType::Short => shorts(0),
        BlockType::Mixed => longs(8) || shorts(3),
        _ => longs(21),
    }
}

/// A record's parts, or the number of its first failing check.
fn parts(edition: u8, b: &[u8], history: &[Channel; 2]) -> Result<Vec<Part>, u8> {
    if edition != 1 && edition != 2 {
        return Err(18);
    }
    let channels = usize::from(b[1]);
    if channels != 1 && channels != 2 {
        return Err(1);
    }
    let bytes = |ch: usize| &b[4 + PART * ch..][..PART];
    if b[2] > 3 || b[3] != 0 || (0..channels).any(|ch| wrong_bytes(bytes(ch))) {
        return Err(12);
    }
    if b[2] != 0 && channels == 1 {
        return Err(2);
    }
    if b[0] > 2 {
        return Err(3);
    }
    let parts: Vec<Part> = (0..channels).map(|ch| part(bytes(ch))).collect();
    if parts.iter().any(|p| p.count1 > 576) {
        return Err(4);
    }
    if parts.iter().any(|p| p.long.iter().chain(p.short.iter().flatten()).any(|&f| f > 15)) {
        return Err(5);
    }
    if parts.iter().any(|p| p.subblock.iter().any(|&g| g > 7)) {
        return Err(6);
    }
    if parts.iter().any(|p| p.numbers.iter().any(|&x| x < -8206 || x > 8206)) {
        return Err(7);
    }
    if b[2] & 1 != 0 && position_too_high(edition, usize::from(b[0]), &parts[0], &parts[1]) {
        return Err(8);
    }
    if (0..channels).any(|ch| !history[ch].finite()) {
        return Err(10);
    }
    Ok(parts)
}

/// A positive f32 as m times 2 to the e.
fn parts_of(x: f32) -> (u128, i32) {
    let bits = x.to_bits();
    (u128::from(bits & 0x7f_ffff | 0x80_0000), (bits >> 23) as i32 - 150)
}

/// Whether the middle of x and the next f32 above it, to the power k, is below n.
fn middle_below(x: f32, k: u32, n: u128) -> bool {
    let (m, e) = parts_of(x);
    let shift = k as i32 * (e - 1);
    let middle = (2 * m + 1).pow(k);
    if shift >= 0 { middle << shift < n } else { middle < n << -shift }
}

/// The f32 nearest to the k-th root of n, found from a guess.
fn nearest_root(k: u32, n: u128, guess: f64) -> f32 {
    let step = |x: f32, by: i32| f32::from_bits((x.to_bits() as i32 + by) as u32);
    let mut x = guess as f32;
    while middle_below(x, k, n) {
        x = step(x, 1);
    }
    while !middle_below(step(x, -1), k, n) {
        x = step(x, -1);
    }
    x
}

pub struct Powers {
    sizes: Vec<f32>,
    roots: [f32; 4],
}

impl Powers {
    fn new() -> Self {
        let size = |n: u32| if n == 0 { 0.0 } else { nearest_root(3, u128::from(n).pow(4), f64::from(n).powf(4.0 / 3.0)) };
        let root = |r: u32| nearest_root(4, 1 << r, 2f64.powf(f64::from(r) / 4.0));
        Powers { sizes: (0..8207).map(size).collect(), roots: [1.0, root(1), root(2), root(3)] }
    }

    fn product(&self, number: i16, q: i32) -> f32 {
        let exponent = q.div_euclid(4);
        let gain = self.roots[q.rem_euclid(4) as usize] * f32::from_bits(((exponent + 127) as u32) << 23);
        let size = self.sizes[usize::from(number.unsigned_abs())] * gain;
        if number < 0 { -size } else { size }
    }
}

const PRETAB: [i32; 22] = [0, 0, 0, 0, 0, 0, 0, 0, 0, 0, 0, 1, 1, 1, 1, 2, 2, 3, 3, 3, 2, 0];

/// The paper's requantize.
fn requantized(powers: &Powers, table: usize, p: &Part) -> [f32; 576] {
    let (long, short) = &tables::SCALE_FACTOR_BAND_INDICES[table];
    let m = if p.scale { 4 } else { 2 };
    let long_at = |i: usize| {
        let band = (0..22).find(|&k| i < long[k + 1] as usize).unwrap();
        let pre = if p.preflag { PRETAB[band] } else { 0 };
        powers.product(p.numbers[i], p.gain - 210 - m * (i32::from(p.long[band]) + pre))
    };
    let short_at = |i: usize| {
        let band = (0..13).find(|&k| i < 3 * short[k + 1] as usize).unwrap();
        let start = 3 * short[band] as usize;
        let window = (i - start) / (short[band + 1] - short[band]) as usize;
        let q = p.gain - 210 - 8 * i32::from(p.subblock[window]) - m * i32::from(p.short[band][window]);
        if start < p.count1 { powers.product(p.numbers[i], q) } else { f32::from(p.numbers[i]) }
    };
    let mut samples = [0f32; 576];
    for i in 0..576 {
        samples[i] = match p.kind {
            BlockType::Short => short_at(i),
            BlockType::Mixed if i < 36 => long_at(i),
            BlockType::Mixed => short_at(i),
            _ if i < p.count1 => long_at(i),
            _ => f32::from(p.numbers[i]),
        };
    }
    samples
}

/// Which requantize a run takes: the paper's, or the given Rust's own, with the platform's `powf`.
pub enum Requantize {
    Paper(Powers),
    Given,
}

/// A granule as the given crate's Huffman decoding would leave it: what its stages take.
struct Decoded {
    head: FrameHeader,
    side: GranuleSideInfo,
    data: MainDataGranule,
    flags: u8,
}

fn decoded(b: &[u8], parts: &[Part]) -> Decoded {
    let mut d = Decoded { head: crate::header(b[0]), side: GranuleSideInfo::default(), data: MainDataGranule::default(), flags: b[2] };
    for (ch, p) in parts.iter().enumerate() {
        let (side, data) = (&mut d.side.channels[ch], &mut d.data.channels[ch]);
        side.block_type = p.kind;
        side.global_gain = p.gain as u8;
        side.scalefac_scale = p.scale;
        side.preflag = p.preflag;
        for win in 0..3 {
            side.subblock_gain[win] = f32::from(p.subblock[win]);
        }
        data.scalefac_l = p.long;
        data.scalefac_s = p.short;
        data.count1 = p.count1 as u32;
        for i in 0..576 {
            data.samples[i] = f32::from(p.numbers[i]);
        }
    }
    d
}

/// The stages: the outputs of the parts' channels, and their next history.
fn stages(by: &Requantize, edition: u8, parts: &[Part], d: &mut Decoded, history: &mut [Channel; 2], outs: &mut [[f32; 576]; 2]) {
    for (ch, p) in parts.iter().enumerate() {
        match by {
            Requantize::Paper(powers) => d.data.channels[ch].samples = requantized(powers, d.head.sample_rate_table, p),
            Requantize::Given => requantize::requantize(&d.head, &d.side.channels[ch], &mut d.data.channels[ch]),
        }
        let reorder = if edition == 2 { crate::reorder_2 } else { requantize::reorder };
        reorder(&d.head, &d.side.channels[ch], &mut d.data.channels[ch]);
    }
    if parts.len() == 2 {
        if edition == 2 {
            crate::stereo_2(&d.head, &d.side, d.flags, &mut d.data);
        } else {
            stereo::stereo(&d.head, &d.side, d.flags & 1 != 0, d.flags & 2 != 0, &mut d.data);
        }
    }
    for ch in 0..parts.len() {
        let samples = &mut d.data.channels[ch].samples;
        synthesis::antialias(&d.side.channels[ch], samples);
        let hybrid = if edition == 2 { edition2::hybrid } else { synthesis::hybrid_synthesis };
        hybrid(d.side.channels[ch].block_type, &mut history[ch].store, samples);
        synthesis::frequency_inversion(samples);
        synthesis::subband_synthesis(samples, &mut history[ch].blocks, &mut outs[ch]);
    }
}

/// What a run says of a record: which it is, the number of its refusal or 0, and its channels' outputs, none where it is refused.
type Say = fn(usize, u8, &[[f32; 576]], &mut Vec<u8>);

/// The refusal's line, or the outputs.
fn outputs(n: usize, number: u8, outs: &[[f32; 576]], answer: &mut Vec<u8>) {
    if number != 0 {
        eprintln!("record {} refused {}", n, number);
    }
    for out in outs {
        crate::put(answer, out);
    }
}

/// The line of both peaks. A channel without outputs has 0.
fn peaks(_: usize, _: u8, outs: &[[f32; 576]], answer: &mut Vec<u8>) {
    let of = |ch: usize| outs.get(ch).map_or(0, |out| crate::peak(out));
    answer.extend_from_slice(format!("{:08x} {:08x}\n", of(0), of(1)).as_bytes());
}

/// The paper's run, which the tests compare with.
pub fn run() -> io::Result<()> {
    run_by(&Requantize::Paper(Powers::new()), Stream::Records, outputs)
}

/// The same run's peaks.
pub fn run_peaks() -> io::Result<()> {
    run_by(&Requantize::Paper(Powers::new()), Stream::Records, peaks)
}

/// The paper's run with an edition named for each record.
pub fn run_editions() -> io::Result<()> {
    run_by(&Requantize::Paper(Powers::new()), Stream::Entries, outputs)
}

/// The same run's peaks.
pub fn run_edition_peaks() -> io::Result<()> {
    run_by(&Requantize::Paper(Powers::new()), Stream::Entries, peaks)
}

/// The outputs with the given Rust's own requantize, which the benchmark takes the time of.
pub fn run_given() -> io::Result<()> {
    run_by(&Requantize::Given, Stream::Records, outputs)
}

/// The given Rust's stages alone, on granules that stand decoded in memory: how many records were rendered, the bits of their first outputs
/// added up, and the nanoseconds that the stages took, for the benchmark. With the word `decoded` no stage is called: what is left of the
/// instructions is not the stages'.
pub fn run_timed() -> io::Result<()> {
    let staged = std::env::args().nth(2).map_or(true, |word| word != "decoded");
    let mut bytes = Vec::new();
    io::stdin().read_to_end(&mut bytes)?;
    let mut history = [Channel::fresh(), Channel::fresh()];
    let mut outs = [[0f32; 576]; 2];
    let (mut rendered, mut sum) = (0, 0u32);
    let mut took = std::time::Duration::default();
    for record in bytes.chunks_exact(RECORD) {
        if let Ok(parts) = parts(1, record, &history) {
            let mut d = decoded(record, &parts);
            let start = std::time::Instant::now();
            if staged {
                stages(&Requantize::Given, 1, &parts, &mut d, &mut history, &mut outs);
            }
            took += start.elapsed();
            rendered += 1;
            sum = sum.wrapping_add(outs[0][0].to_bits());
        }
    }
    println!("{} {:08x} {}", rendered, sum, took.as_nanos());
    Ok(())
}

/// What a run reads: records as the record program does, no more than it takes, or any number of entries.
#[derive(PartialEq)]
enum Stream {
    Records,
    Entries,
}

fn run_by(by: &Requantize, stream: Stream, say: Say) -> io::Result<()> {
    let mut from = BufReader::new(io::stdin());
    let mut to = BufWriter::new(io::stdout());
    let mut history = [Channel::fresh(), Channel::fresh()];
    let mut outs = [[0f32; 576]; 2];
    let mut answer = Vec::new();
    let before = if stream == Stream::Entries { 1 } else { 0 };
    for n in 0.. {
        let mut entry = Vec::new();
        from.by_ref().take((before + RECORD) as u64).read_to_end(&mut entry)?;
        if entry.is_empty() {
            break;
        }
        let (edition, record) = (if before == 1 { entry[0] } else { 1 }, &entry[before..]);
        let too_many = stream == Stream::Records && n == MOST_RECORDS;
        let end = if too_many { 14 } else if record.len() < RECORD { 13 } else { 0 };
        let (number, used) = match if end != 0 { Err(end) } else { parts(edition, record, &history) } {
            Err(number) => (number, 0),
            Ok(parts) => {
                stages(by, edition, &parts, &mut decoded(record, &parts), &mut history, &mut outs);
                (0, parts.len())
            }
        };
        answer.clear();
        say(n, number, &outs[..used], &mut answer);
        to.write_all(&answer)?;
        if end != 0 {
            break;
        }
    }
    to.flush()
}
