// From crates/cuttlefish-rs/src/color.rs of COMBINE-lab/cuttlefish, commit c6f27f2be6.
// BSD-3-Clause, Copyright (c) 2020, COMBINE lab: see ../LICENSE.txt.
//
// The run functions and the record codec, private functions included, in the order of that file. Adapted:
// - Functions and types are `pub`, so that the host can call them and measure them.
// - `ColorWorkerWriter` writes to a `Vec<u8>` and not to a file, and doesn't count its records: the bytes are compared in
//   memory. `write_color_record` over it is unchanged.
// - `index_worker` takes the open file and not the folder and number that name it, and answers `std::io::Error` and not
//   `ColorError`, which holds the path. The rest of it is unchanged.
// Everything else is the published text.

use crate::state::{ColorCoordinate, UnitigColor};
use std::io::{Read, Write};

pub fn reverse_color_runs(runs: &[UnitigColor], vertex_count: u32) -> Vec<UnitigColor> {
    let mut reversed = Vec::with_capacity(runs.len());
    for index in (0..runs.len()).rev() {
        let end = runs
            .get(index + 1)
            .map_or(vertex_count, |next| next.offset());
        reversed.push(UnitigColor::new(
            vertex_count - end,
            ColorCoordinate::from_u40(runs[index].coordinate()),
        ));
    }
    reversed
}

pub fn reverse_color_runs_in_place(runs: &mut [UnitigColor], vertex_count: u32) {
    if runs.is_empty() {
        return;
    }
    runs.reverse();
    for index in (1..runs.len()).rev() {
        runs[index] = UnitigColor::new(
            vertex_count - runs[index - 1].offset(),
            ColorCoordinate::from_u40(runs[index].coordinate()),
        );
    }
    runs[0] = UnitigColor::new(0, ColorCoordinate::from_u40(runs[0].coordinate()));
}

pub fn append_color_runs(
    output: &mut Vec<UnitigColor>,
    output_vertex_count: u32,
    runs: &[UnitigColor],
    unitig_vertex_count: u32,
    reverse: bool,
) {
    if reverse {
        output.reserve(runs.len());
        for index in (0..runs.len()).rev() {
            if index == runs.len() - 1
                && output
                    .last()
                    .is_some_and(|left| left.coordinate() == runs[index].coordinate())
            {
                continue;
            }
            let end = runs
                .get(index + 1)
                .map_or(unitig_vertex_count, |next| next.offset());
            output.push(UnitigColor::new(
                output_vertex_count + unitig_vertex_count - end - 1,
                ColorCoordinate::from_u40(runs[index].coordinate()),
            ));
        }
    } else {
        let start = usize::from(
            output
                .last()
                .zip(runs.first())
                .is_some_and(|(left, right)| left.coordinate() == right.coordinate()),
        );
        output.reserve(runs.len().saturating_sub(start));
        for run in &runs[start..] {
            output.push(UnitigColor::new(
                output_vertex_count + run.offset() - 1,
                ColorCoordinate::from_u40(run.coordinate()),
            ));
        }
    }
}

pub fn rotate_cycle_color_runs(
    runs: &[UnitigColor],
    vertex_count: u32,
    pivot: u32,
    reverse: bool,
) -> Vec<UnitigColor> {
    if runs.is_empty() || vertex_count == 0 {
        return Vec::new();
    }
    let oriented = if reverse {
        reverse_color_runs(runs, vertex_count)
    } else {
        runs.to_vec()
    };
    let mut colors = vec![0u64; vertex_count as usize];
    for (index, run) in oriented.iter().enumerate() {
        let end = oriented
            .get(index + 1)
            .map_or(vertex_count, |next| next.offset());
        colors[run.offset() as usize..end as usize].fill(run.coordinate());
    }
    colors.rotate_left((pivot % vertex_count) as usize);
    compress_color_coordinates(&colors)
}

pub fn compress_color_coordinates(colors: &[u64]) -> Vec<UnitigColor> {
    let mut runs = Vec::new();
    for (offset, &coordinate) in colors.iter().enumerate() {
        if runs
            .last()
            .is_none_or(|previous: &UnitigColor| previous.coordinate() != coordinate)
        {
            runs.push(UnitigColor::new(
                offset as u32,
                ColorCoordinate::from_u40(coordinate),
            ));
        }
    }
    runs
}

/// Adapted: see the head of this file.
#[derive(Default)]
pub struct ColorWorkerWriter {
    pub output: Vec<u8>,
    /// Reused across records so encoding a color allocates nothing.
    pub bits: BitWriter,
}

/// Adapted: see the head of this file.
pub fn index_worker(input: &mut impl Read, count: u32) -> std::io::Result<Vec<u64>> {
    let mut offsets = Vec::with_capacity(count as usize + 1);
    if count == 0 {
        offsets.push(0);
        return Ok(offsets);
    }
    let mut position = 0u64;
    for _ in 0..count {
        offsets.push(position);
        // Records are length-prefixed precisely so the index pass can skip
        // their payloads instead of decoding them.
        let (len, varint_bytes) = read_varint_len(input)?;
        std::io::copy(
            &mut input.by_ref().take(u64::from(len)),
            &mut std::io::sink(),
        )?;
        position += varint_bytes as u64 + u64::from(len);
    }
    offsets.push(position);
    Ok(offsets)
}

/// Reads a record's length prefix, reporting how many bytes it occupied.
pub fn read_varint_len(input: &mut impl Read) -> std::io::Result<(u32, usize)> {
    let mut value = 0u32;
    let mut shift = 0;
    let mut bytes = 0;
    loop {
        let mut byte = [0u8; 1];
        input.read_exact(&mut byte)?;
        bytes += 1;
        value |= u32::from(byte[0] & 0x7F) << shift;
        if byte[0] & 0x80 == 0 {
            return Ok((value, bytes));
        }
        shift += 7;
        if shift > 28 {
            return Err(std::io::Error::new(
                std::io::ErrorKind::InvalidData,
                "color record length overflows u32",
            ));
        }
    }
}

/// Writes one length-prefixed color record.
///
/// The bit stream is byte-padded and preceded by its length so a record can be
/// skipped without decoding it, which is what sequential lookup does.
pub fn write_color_record(
    writer: &mut ColorWorkerWriter,
    sources: &[u32],
    num_colors: u32,
) -> std::io::Result<()> {
    writer.bits.clear();
    encode_source_set(&mut writer.bits, sources, num_colors);
    let encoded = writer.bits.finish();
    write_varint(&mut writer.output, encoded.len() as u32)?;
    writer.output.write_all(encoded)
}

/// Inverse of [`write_color_record`].
pub fn read_color_record(input: &mut impl Read, num_colors: u32) -> std::io::Result<Vec<u32>> {
    let len = read_varint(input)? as usize;
    let mut encoded = vec![0u8; len];
    input.read_exact(&mut encoded)?;
    decode_source_set(&mut BitReader::new(&encoded), num_colors)
}

/// Appends bits least-significant-first, matching Fulgor's `bit_vector_builder`.
#[derive(Default)]
pub struct BitWriter {
    bytes: Vec<u8>,
    accumulator: u64,
    pending: u32,
    /// Scratch for the bitmap regime, which would otherwise allocate a buffer
    /// as wide as the source set for every middling color.
    bitmap: Vec<u64>,
}

impl BitWriter {
    pub fn clear(&mut self) {
        self.bytes.clear();
        self.accumulator = 0;
        self.pending = 0;
    }

    pub fn push(&mut self, value: u64, count: u32) {
        debug_assert!(count <= 64);
        if count == 0 {
            return;
        }
        let value = value & mask(count);
        // Accumulate a whole word before touching the output, so a full push
        // costs one eight-byte append rather than eight single-byte ones.
        let free = 64 - self.pending;
        if count < free {
            self.accumulator |= value << self.pending;
            self.pending += count;
            return;
        }
        self.accumulator |= value << self.pending;
        self.bytes
            .extend_from_slice(&self.accumulator.to_le_bytes());
        self.accumulator = if free == 64 { 0 } else { value >> free };
        self.pending = count - free;
    }

    /// Pads to the next byte so each record starts on a byte boundary.
    pub fn finish(&mut self) -> &[u8] {
        // Up to a whole word may be held back, so this drains rather than
        // emitting a single trailing byte.
        while self.pending > 0 {
            self.bytes.push(self.accumulator as u8);
            self.accumulator >>= 8;
            self.pending = self.pending.saturating_sub(8);
        }
        self.accumulator = 0;
        &self.bytes
    }
}

/// Reads the stream [`BitWriter`] produces.
pub struct BitReader<'a> {
    bytes: &'a [u8],
    position: usize,
}

impl<'a> BitReader<'a> {
    pub fn new(bytes: &'a [u8]) -> Self {
        Self { bytes, position: 0 }
    }

    pub fn bit(&mut self) -> std::io::Result<u64> {
        let byte = self
            .bytes
            .get(self.position / 8)
            .ok_or_else(|| std::io::Error::from(std::io::ErrorKind::UnexpectedEof))?;
        let bit = (byte >> (self.position % 8)) & 1;
        self.position += 1;
        Ok(u64::from(bit))
    }

    pub fn take(&mut self, count: u32) -> std::io::Result<u64> {
        let mut value = 0u64;
        for index in 0..count {
            value |= self.bit()? << index;
        }
        Ok(value)
    }

    pub fn skip_zeros(&mut self) -> std::io::Result<u64> {
        let mut zeros = 0u64;
        while self.bit()? == 0 {
            zeros += 1;
        }
        Ok(zeros)
    }
}

pub fn mask(bits: u32) -> u64 {
    if bits >= 64 {
        u64::MAX
    } else {
        (1u64 << bits) - 1
    }
}

/// Index of the most significant set bit; `value` must be nonzero.
pub fn msb(value: u64) -> u32 {
    63 - value.leading_zeros()
}

pub fn write_gamma(out: &mut BitWriter, value: u64) {
    let shifted = value + 1;
    let bits = msb(shifted);
    // Unary: `bits` zeros then a one.
    out.push(1u64 << bits, bits + 1);
    out.push(shifted & mask(bits), bits);
}

pub fn read_gamma(input: &mut BitReader<'_>) -> std::io::Result<u64> {
    let bits = input.skip_zeros()? as u32;
    Ok((input.take(bits)? | (1u64 << bits)) - 1)
}

pub fn write_delta(out: &mut BitWriter, value: u64) {
    let shifted = value + 1;
    let bits = msb(shifted);
    write_gamma(out, u64::from(bits));
    out.push(shifted & mask(bits), bits);
}

pub fn read_delta(input: &mut BitReader<'_>) -> std::io::Result<u64> {
    let bits = read_gamma(input)? as u32;
    Ok((input.take(bits)? | (1u64 << bits)) - 1)
}

/// Encodes `sources` with Fulgor's hybrid scheme, given `num_colors` sources
/// in total.
///
/// Three regimes, chosen by how much of the source set a color covers. Sparse
/// sets are gap-coded; middling ones become a plain bitmap; very dense ones are
/// gap-coded over their complement. The last is what matters for a pangenome of
/// near-identical assemblies, where a core k-mer occurs in almost every source:
/// a flat list spends one code per member, while the complement spends one per
/// absence.
pub fn encode_source_set(out: &mut BitWriter, sources: &[u32], num_colors: u32) {
    // Source IDs are one-based, so `num_colors` must exceed the largest of
    // them. A caller that passes the source *count* instead silently encodes
    // sets containing the highest id as empty -- the bitmap regime has no bit
    // for it and the complement regime inverts against the wrong width -- and
    // the only symptom is missing colors much later. Caught here rather than
    // at the point the sets are read back.
    debug_assert!(
        sources.last().is_none_or(|&max| max < num_colors),
        "color alphabet {num_colors} cannot represent source {:?}",
        sources.last()
    );
    let len = sources.len() as u64;
    write_delta(out, len);
    if sources.is_empty() {
        return;
    }
    let sparse_threshold = u64::from(num_colors) / 4;
    let dense_threshold = u64::from(num_colors) * 3 / 4;
    if len < sparse_threshold {
        write_delta(out, u64::from(sources[0]));
        for pair in sources.windows(2) {
            write_delta(out, u64::from(pair[1] - (pair[0] + 1)));
        }
    } else if len < dense_threshold {
        let words = (num_colors as usize).div_ceil(64);
        out.bitmap.clear();
        out.bitmap.resize(words, 0);
        for &source in sources {
            out.bitmap[source as usize / 64] |= 1u64 << (source % 64);
        }
        let mut remaining = num_colors;
        for index in 0..words {
            let word = out.bitmap[index];
            let width = remaining.min(64);
            out.push(word, width);
            remaining -= width;
        }
    } else {
        // Gap-code the complement. A dense set is nearly contiguous, so the
        // inner loop rarely fires and this is a scan of `sources` -- which is
        // the lower bound anyway, since absences are only discoverable by
        // finding the breaks in a sorted list.
        //
        // `previous` starts one before zero so the first absence is written as
        // its own value, without an Option check on every later one.
        let mut previous = u32::MAX;
        let mut absent = 0u32;
        for &source in sources {
            while absent < source {
                let gap = if previous == u32::MAX {
                    absent
                } else {
                    absent - (previous + 1)
                };
                write_delta(out, u64::from(gap));
                previous = absent;
                absent += 1;
            }
            absent = source + 1;
        }
        while absent < num_colors {
            let gap = if previous == u32::MAX {
                absent
            } else {
                absent - (previous + 1)
            };
            write_delta(out, u64::from(gap));
            previous = absent;
            absent += 1;
        }
    }
}

/// Inverse of [`encode_source_set`].
pub fn decode_source_set(input: &mut BitReader<'_>, num_colors: u32) -> std::io::Result<Vec<u32>> {
    let len = read_delta(input)? as usize;
    if len == 0 {
        return Ok(Vec::new());
    }
    let sparse_threshold = u64::from(num_colors) / 4;
    let dense_threshold = u64::from(num_colors) * 3 / 4;
    let mut sources = Vec::with_capacity(len);
    if (len as u64) < sparse_threshold {
        let mut previous = read_delta(input)? as u32;
        sources.push(previous);
        for _ in 1..len {
            let gap = read_delta(input)? as u32;
            let value = previous
                .checked_add(1)
                .and_then(|base| base.checked_add(gap))
                .ok_or_else(|| std::io::Error::from(std::io::ErrorKind::InvalidData))?;
            sources.push(value);
            previous = value;
        }
    } else if (len as u64) < dense_threshold {
        let mut remaining = num_colors;
        let mut base = 0u32;
        while remaining > 0 {
            let width = remaining.min(64);
            let word = input.take(width)?;
            for offset in 0..width {
                if word >> offset & 1 == 1 {
                    sources.push(base + offset);
                }
            }
            base += width;
            remaining -= width;
        }
    } else {
        // Reconstruct by walking the complement.
        let absent_count = num_colors as usize - len;
        let mut absent = Vec::with_capacity(absent_count);
        let mut previous: Option<u32> = None;
        for _ in 0..absent_count {
            let gap = read_delta(input)? as u32;
            let value = match previous {
                None => gap,
                Some(prior) => prior + 1 + gap,
            };
            absent.push(value);
            previous = Some(value);
        }
        let mut next_absent = absent.into_iter().peekable();
        for value in 0..num_colors {
            if next_absent.peek() == Some(&value) {
                next_absent.next();
            } else {
                sources.push(value);
            }
        }
    }
    Ok(sources)
}

pub fn write_varint(output: &mut impl Write, mut value: u32) -> std::io::Result<()> {
    while value >= 0x80 {
        output.write_all(&[((value as u8) & 0x7f) | 0x80])?;
        value >>= 7;
    }
    output.write_all(&[value as u8])
}

pub fn write_unitig_color_runs(
    output: &mut impl Write,
    colors: &[UnitigColor],
) -> std::io::Result<()> {
    let count = u32::try_from(colors.len())
        .map_err(|_| std::io::Error::from(std::io::ErrorKind::InvalidInput))?;
    write_varint(output, count)?;
    for color in colors {
        output.write_all(&color.raw().to_le_bytes())?;
    }
    Ok(())
}

pub fn read_unitig_color_runs(
    input: &mut impl Read,
    colors: &mut Vec<UnitigColor>,
) -> std::io::Result<()> {
    let count = read_varint(input)?;
    colors.clear();
    // The count comes from the file; reserve only what a sane record could
    // need, and let a larger (or corrupt) one grow as it is read.
    colors.reserve((count as usize).min(1 << 16));
    for _ in 0..count {
        let mut raw = [0u8; 8];
        input.read_exact(&mut raw)?;
        let raw = u64::from_le_bytes(raw);
        colors.push(UnitigColor::new(
            (raw & 0xff_ffff) as u32,
            ColorCoordinate::from_u40(raw >> 24),
        ));
    }
    Ok(())
}

pub fn append_varint_u32(output: &mut Vec<u8>, mut value: u32) {
    while value >= 0x80 {
        output.push(((value as u8) & 0x7f) | 0x80);
        value >>= 7;
    }
    output.push(value as u8);
}

pub fn read_varint(input: &mut impl Read) -> std::io::Result<u32> {
    let mut value = 0u32;
    for shift in (0..35).step_by(7) {
        let mut byte = [0u8; 1];
        input.read_exact(&mut byte)?;
        value |= u32::from(byte[0] & 0x7f) << shift;
        if byte[0] & 0x80 == 0 {
            return Ok(value);
        }
    }
    Err(std::io::Error::from(std::io::ErrorKind::InvalidData))
}
