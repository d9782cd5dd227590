//! The oracle's driver: runs one stage of the given Rust over a list of cases.
//!
//! `driver STAGE` reads cases (inputs only) from standard input and writes each
//! case's bytes followed by the answer's bytes to standard output. Everything is
//! little endian, floats are their f32 bits, and every not-a-number in an answer
//! is written as 0x7fc00000. README.md has the formats.
//!
//! `driver synthesis ROOM` lends so many places for outputs, at most 577, and
//! `driver requantize-floats` takes numbers and subblock gains as the Rust has them.
//!
//! `driver records` is the whole back end over records (records.rs), `driver peaks` says each record's peaks instead of its outputs;
//! `driver editions` and `driver edition-peaks` are these two over records with an edition before each;
//! `driver records-given` is the first with the given Rust's own requantize, for the benchmark, and `driver records-timed` takes its time by itself.
//!
//! `types`, `requantize`, `stereo` and `synthesis` are the given files, unchanged;
//! `tables` is written from the project's own tables. build.py puts them together.
//!
//! `driver reorder-2`, `stereo-2` and `hybrid-2` answer by edition 2 (edition2.rs), in which the given Rust has no part.
#![allow(dead_code)]

mod edition2;
mod records;
mod requantize;
mod stereo;
mod synthesis;
mod tables;
mod types;

use std::io::{self, BufReader, BufWriter, Read, Write};
use types::*;

/// Reads the fields of one case in order.
struct Fields<'a> {
    bytes: &'a [u8],
    at: usize,
}

impl<'a> Fields<'a> {
    fn new(bytes: &'a [u8]) -> Self {
        Fields { bytes, at: 0 }
    }

    fn take(&mut self, n: usize) -> &'a [u8] {
        let part = &self.bytes[self.at..self.at + n];
        self.at += n;
        part
    }

    fn u8(&mut self) -> u8 {
        self.take(1)[0]
    }

    fn u16(&mut self) -> u16 {
        let b = self.take(2);
        u16::from_le_bytes([b[0], b[1]])
    }

    fn i16(&mut self) -> i16 {
        self.u16() as i16
    }

    fn f32(&mut self) -> f32 {
        let b = self.take(4);
        f32::from_bits(u32::from_le_bytes([b[0], b[1], b[2], b[3]]))
    }

    fn floats(&mut self, to: &mut [f32]) {
        for x in to.iter_mut() {
            *x = self.f32();
        }
    }

    fn zeros(&mut self, n: usize) {
        if self.take(n).iter().any(|&b| b != 0) {
            panic!("a byte that has to be 0 is not");
        }
    }

    fn block_type(&mut self) -> BlockType {
        match self.u8() {
            0 => BlockType::Long,
            1 => BlockType::Short,
            2 => BlockType::Mixed,
            3 => BlockType::Start,
            4 => BlockType::End,
            n => panic!("block type {}", n),
        }
    }

    /// 22 long factors, then 39 short ones: band, then window.
    fn factors(&mut self, data: &mut MainDataChannel) {
        for sfb in 0..22 {
            data.scalefac_l[sfb] = self.u8();
        }
        for sfb in 0..13 {
            for win in 0..3 {
                data.scalefac_s[sfb][win] = self.u8();
            }
        }
    }

    fn end(&self) {
        assert_eq!(self.at, self.bytes.len());
    }
}

fn header(table: u8) -> FrameHeader {
    FrameHeader {
        version: MpegVersion::Mpeg1,
        layer: MpegLayer::Layer3,
        crc: false,
        bitrate: BitRate::Kbps128,
        // no stage asks for the rate; a table that is not there is left to the stages
        sample_rate: match table {
            0 => SampleRate::Hz44100,
            1 => SampleRate::Hz48000,
            _ => SampleRate::Hz32000,
        },
        padding: false,
        channels: Channels::Stereo,
        copyright: false,
        original: false,
        emphasis: Emphasis::None,
        sample_rate_table: table as usize,
        data_size: 0,
    }
}

fn put(answer: &mut Vec<u8>, numbers: &[f32]) {
    for x in numbers {
        let bits = if x.is_nan() { 0x7fc0_0000 } else { x.to_bits() };
        answer.extend_from_slice(&bits.to_le_bytes());
    }
}

/// Edition 2's reorder, handed what the given Rust's takes.
fn reorder_2(head: &FrameHeader, side: &GranuleChannelSideInfo, data: &mut MainDataChannel) {
    edition2::reorder(head.sample_rate_table, side.block_type, data.count1 as usize, &mut data.samples);
}

/// Edition 2's stereo, handed what the given Rust's takes.
fn stereo_2(head: &FrameHeader, side: &GranuleSideInfo, flags: u8, data: &mut MainDataGranule) {
    let [left, right] = &mut data.channels;
    let count1 = [left.count1 as usize, right.count1 as usize];
    let positions = edition2::Positions { long: &right.scalefac_l, short: &right.scalefac_s };
    edition2::stereo(head.sample_rate_table, side.channels[0].block_type, flags, count1, &positions, &mut left.samples, &mut right.samples);
}

/// The largest of the outputs' bit patterns with the sign bit cleared, read as a whole number.
fn peak(outputs: &[f32]) -> u32 {
    outputs.iter().map(|x| x.to_bits() & 0x7fff_ffff).max().unwrap_or(0)
}

/// What requantize is handed: the fields of a case, its whole numbers as the floats that the Rust has.
fn requantize_inputs(f: &mut Fields) -> (FrameHeader, GranuleChannelSideInfo, MainDataChannel) {
    let mut side = GranuleChannelSideInfo::default();
    let mut data = MainDataChannel::default();
    let head = header(f.u8());
    f.zeros(3);
    side.block_type = f.block_type();
    side.global_gain = f.u8();
    let flags = f.u8();
    side.scalefac_scale = flags & 1 != 0;
    side.preflag = flags & 2 != 0;
    for gain in side.subblock_gain.iter_mut() {
        *gain = f32::from(f.u8());
    }
    f.factors(&mut data);
    f.zeros(1);
    data.count1 = u32::from(f.u16());
    for x in data.samples.iter_mut() {
        *x = f32::from(f.i16());
    }
    (head, side, data)
}

fn requantize_case(case: &[u8], answer: &mut Vec<u8>) {
    let mut f = Fields::new(case);
    let (head, side, mut data) = requantize_inputs(&mut f);
    f.end();
    requantize::requantize(&head, &side, &mut data);
    put(answer, &data.samples);
}

/// After a case of requantize stand three subblock gains and 576 numbers, floats of any value, which take the place of its own.
fn requantize_floats_case(case: &[u8], answer: &mut Vec<u8>) {
    let mut f = Fields::new(case);
    let (head, mut side, mut data) = requantize_inputs(&mut f);
    f.floats(&mut side.subblock_gain);
    f.floats(&mut data.samples);
    f.end();
    requantize::requantize(&head, &side, &mut data);
    put(answer, &data.samples);
}

fn reorder_inputs(case: &[u8]) -> (FrameHeader, GranuleChannelSideInfo, MainDataChannel) {
    let mut f = Fields::new(case);
    let mut side = GranuleChannelSideInfo::default();
    let mut data = MainDataChannel::default();
    let head = header(f.u8());
    side.block_type = f.block_type();
    data.count1 = u32::from(f.u16());
    f.floats(&mut data.samples);
    f.end();
    (head, side, data)
}

fn reorder_case(case: &[u8], answer: &mut Vec<u8>) {
    let (head, side, mut data) = reorder_inputs(case);
    requantize::reorder(&head, &side, &mut data);
    put(answer, &data.samples);
}

fn reorder_2_case(case: &[u8], answer: &mut Vec<u8>) {
    let (head, side, mut data) = reorder_inputs(case);
    reorder_2(&head, &side, &mut data);
    put(answer, &data.samples);
}

fn stereo_inputs(case: &[u8]) -> (FrameHeader, GranuleSideInfo, u8, MainDataGranule) {
    let mut f = Fields::new(case);
    let mut side = GranuleSideInfo::default();
    let mut data = MainDataGranule::default();
    let head = header(f.u8());
    side.channels[0].block_type = f.block_type();
    let flags = f.u8();
    f.zeros(1);
    for ch in 0..2 {
        data.channels[ch].count1 = u32::from(f.u16());
    }
    for ch in 0..2 {
        f.factors(&mut data.channels[ch]);
        f.zeros(3);
    }
    for ch in 0..2 {
        f.floats(&mut data.channels[ch].samples);
    }
    f.end();
    (head, side, flags, data)
}

fn put_both(answer: &mut Vec<u8>, data: &MainDataGranule) {
    for ch in 0..2 {
        put(answer, &data.channels[ch].samples);
    }
}

fn stereo_case(case: &[u8], answer: &mut Vec<u8>) {
    let (head, side, flags, mut data) = stereo_inputs(case);
    stereo::stereo(&head, &side, flags & 1 != 0, flags & 2 != 0, &mut data);
    put_both(answer, &data);
}

fn stereo_2_case(case: &[u8], answer: &mut Vec<u8>) {
    let (head, side, flags, mut data) = stereo_inputs(case);
    stereo_2(&head, &side, flags, &mut data);
    put_both(answer, &data);
}

fn antialias_case(case: &[u8], answer: &mut Vec<u8>) {
    let mut f = Fields::new(case);
    let mut side = GranuleChannelSideInfo::default();
    let mut samples = [0f32; 576];
    side.block_type = f.block_type();
    f.zeros(3);
    f.floats(&mut samples);
    f.end();
    synthesis::antialias(&side, &mut samples);
    put(answer, &samples);
}

/// One of the two hybrids: block type, overlap, samples.
type Hybrid = fn(BlockType, &mut [[f32; 18]; 32], &mut [f32; 576]);

fn hybrid_by(hybrid: Hybrid, case: &[u8], answer: &mut Vec<u8>) {
    let mut f = Fields::new(case);
    let mut samples = [0f32; 576];
    let mut store = [[0f32; 18]; 32];
    let block_type = f.block_type();
    f.zeros(3);
    f.floats(&mut samples);
    for row in store.iter_mut() {
        f.floats(row);
    }
    f.end();
    hybrid(block_type, &mut store, &mut samples);
    put(answer, &samples);
    for row in store.iter() {
        put(answer, row);
    }
}

fn hybrid_case(case: &[u8], answer: &mut Vec<u8>) {
    hybrid_by(synthesis::hybrid_synthesis, case, answer)
}

fn hybrid_2_case(case: &[u8], answer: &mut Vec<u8>) {
    hybrid_by(edition2::hybrid, case, answer)
}

fn inversion_case(case: &[u8], answer: &mut Vec<u8>) {
    let mut f = Fields::new(case);
    let mut samples = [0f32; 576];
    f.floats(&mut samples);
    f.end();
    synthesis::frequency_inversion(&mut samples);
    put(answer, &samples);
}

/// How many places synthesis is lent for its outputs: a second word of the command, or all.
fn room() -> usize {
    std::env::args().nth(2).map_or(577, |word| word.parse().expect("room is a number"))
}

fn synthesis_case(case: &[u8], answer: &mut Vec<u8>) {
    let mut f = Fields::new(case);
    let mut samples = [0f32; 576];
    let mut history = [0f32; 1024];
    let mut out = [0.5f32; 577];
    f.floats(&mut samples);
    f.floats(&mut history);
    f.end();
    synthesis::subband_synthesis(&samples, &mut history, &mut out[..room()]);
    put(answer, &history);
    put(answer, &out);
    answer.extend_from_slice(&peak(&out[..576]).to_le_bytes());
}

/// Fills the buffer; false at the end of the input, an error inside a case.
fn next_case(from: &mut dyn Read, case: &mut [u8]) -> io::Result<bool> {
    let mut have = 0;
    while have < case.len() {
        let n = from.read(&mut case[have..])?;
        if n == 0 {
            break;
        }
        have += n;
    }
    if have != 0 && have != case.len() {
        return Err(io::Error::new(
            io::ErrorKind::UnexpectedEof,
            "the last case is cut short",
        ));
    }
    Ok(have != 0)
}

/// One float stage over and over on one granule's samples, as the program bench_stages does it (its source says the input's form): the
/// bits of a sum over one output of each run.
fn bench() -> io::Result<()> {
    let mut input = [0u8; 2312];
    io::stdin().read_exact(&mut input)?;
    let times = u32::from_le_bytes([input[4], input[5], input[6], input[7]]);
    let mut f = Fields::new(&input);
    let stage = f.u8() % 16;
    let kind = f.block_type();
    f.take(6);
    let mut samples = [0f32; 576];
    f.floats(&mut samples);
    f.end();
    let side = GranuleChannelSideInfo {
        block_type: kind,
        ..Default::default()
    };
    let mut store = [[0f32; 18]; 32];
    let mut blocks = [0f32; 1024];
    let mut sum = 0f32;
    for _ in 0..times {
        let mut xs = samples;
        match stage {
            3 => synthesis::antialias(&side, &mut xs),
            4 => synthesis::hybrid_synthesis(kind, &mut store, &mut xs),
            5 => synthesis::frequency_inversion(&mut xs),
            _ => {
                let mut out = [0f32; 576];
                synthesis::subband_synthesis(&xs, &mut blocks, &mut out);
                xs = out;
            }
        }
        sum += match stage {
            5 => xs[19],
            3 | 4 => xs[17],
            _ => xs[575],
        };
    }
    println!("{:08x}", sum.to_bits());
    Ok(())
}

fn main() -> io::Result<()> {
    let stage = std::env::args().nth(1).unwrap_or_default();
    if stage == "bench" {
        return bench();
    }
    if stage == "records" {
        return records::run();
    }
    if stage == "peaks" {
        return records::run_peaks();
    }
    if stage == "editions" {
        return records::run_editions();
    }
    if stage == "edition-peaks" {
        return records::run_edition_peaks();
    }
    if stage == "records-given" {
        return records::run_given();
    }
    if stage == "records-timed" {
        return records::run_timed();
    }
    let (size, run): (usize, fn(&[u8], &mut Vec<u8>)) = match stage.as_str() {
        "requantize" => (1226, requantize_case),
        "requantize-floats" => (3542, requantize_floats_case),
        "reorder" => (2308, reorder_case),
        "reorder-2" => (2308, reorder_2_case),
        "stereo" => (4744, stereo_case),
        "stereo-2" => (4744, stereo_2_case),
        "antialias" => (2308, antialias_case),
        "hybrid" => (4612, hybrid_case),
        "hybrid-2" => (4612, hybrid_2_case),
        "inversion" => (2304, inversion_case),
        "synthesis" => (6400, synthesis_case),
        _ => {
            eprintln!(
                "driver requantize|requantize-floats|reorder|reorder-2|stereo|stereo-2|antialias|hybrid|hybrid-2|inversion|synthesis [ROOM]|records|peaks|editions|edition-peaks|records-given|records-timed|bench < cases"
            );
            std::process::exit(2);
        }
    };
    let mut from = BufReader::new(io::stdin());
    let mut to = BufWriter::new(io::stdout());
    let mut case = vec![0u8; size];
    let mut answer = Vec::new();
    while next_case(&mut from, &mut case)? {
        answer.clear();
        run(&case, &mut answer);
        to.write_all(&case)?;
        to.write_all(&answer)?;
    }
    to.flush()
}
