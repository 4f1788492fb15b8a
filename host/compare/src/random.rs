//! Random numbers that a seed repeats (SplitMix64), and the random inputs made of them.

use model::runs::{coordinate, offset, pack};

pub struct Random(u64);

impl Random {
    pub fn new(seed: u64) -> Self {
        Random(seed)
    }

    pub fn word(&mut self) -> u64 {
        self.0 = self.0.wrapping_add(0x9E37_79B9_7F4A_7C15);
        let mut z = self.0;
        z = (z ^ (z >> 30)).wrapping_mul(0xBF58_476D_1CE4_E5B9);
        z = (z ^ (z >> 27)).wrapping_mul(0x94D0_49BB_1331_11EB);
        z ^ (z >> 31)
    }

    /// A number below `limit`, which is not 0.
    pub fn below(&mut self, limit: u64) -> u64 {
        self.word() % limit
    }

    pub fn flip(&mut self) -> bool {
        self.word() & 1 == 1
    }

    pub fn pick<T: Copy>(&mut self, items: &[T]) -> T {
        items[self.below(items.len() as u64) as usize]
    }

    /// A set of `len` of the ids below `n`, ascending: each such set is as likely as any other.
    pub fn set(&mut self, n: u32, len: u32) -> Vec<u32> {
        let mut ids = Vec::with_capacity(len as usize);
        let mut wanted = u64::from(len);
        for id in 0..n {
            if wanted == 0 {
                break;
            }
            if self.below(u64::from(n - id)) < wanted {
                ids.push(id);
                wanted -= 1;
            }
        }
        ids
    }

    /// A set of `count` runs of `len` ids below `n`, ascending, with an absent id or more between two runs.
    pub fn clusters(&mut self, n: u32, count: u32, len: u32) -> Vec<u32> {
        // Distinct places of shrunken runs, of one id each and no room between; then each is put so much further on as those
        // before it take.
        let places = self.set(n - count * len + 1, count);
        let starts = places.iter().zip(0..).map(|(place, i)| place + i * len);
        starts.flat_map(|start| start..start + len).collect()
    }

    /// A coordinate: often one of a few, so that neighbours are equal, sometimes any of 40 bits.
    pub fn coordinate(&mut self) -> u64 {
        match self.below(8) {
            0 => self.below(1 << 40),
            1 => (1 << 40) - 1,
            2 => 0,
            _ => self.below(3),
        }
    }

    /// A list of up to `most` runs that is sharp for `n`, which is not 0.
    pub fn sharp(&mut self, n: u32, most: u32) -> Vec<u64> {
        let mut offsets = self.offsets(n, most);
        offsets.dedup();
        self.coloured(&offsets)
    }

    /// A list of up to `most` runs that is steady for `n`: it may have runs of no vertices, also at the end.
    pub fn steady(&mut self, n: u32, most: u32) -> Vec<u64> {
        if most == 0 || self.below(16) == 0 {
            return Vec::new();
        }
        let mut offsets = self.offsets(n + 1, most);
        if self.below(4) == 0 {
            offsets.push(n);
        }
        self.coloured(&offsets)
    }

    /// Gives half of the runs, or more where there were equal ones, the coordinate of the one before.
    pub fn repeat(&mut self, runs: &mut [u64]) {
        for i in 1..runs.len() {
            if self.flip() {
                runs[i] = pack(offset(runs[i]), coordinate(runs[i - 1]));
            }
        }
    }

    /// Words that are a list of neither kind, most often.
    pub fn neither(&mut self, n: u32, most: u32) -> Vec<u64> {
        let count = 1 + self.below(u64::from(most.max(1))) as usize;
        let limit = match self.below(3) {
            0 => 1 << 24,
            1 => u64::from(n.min(0xff_fffe)) + 2,
            _ => 6,
        };
        (0..count)
            .map(|_| pack(self.below(limit.min(1 << 24)) as u32, self.coordinate()))
            .collect()
    }

    /// 0, then up to `most - 1` offsets below `limit`, which never descend.
    pub fn offsets(&mut self, limit: u32, most: u32) -> Vec<u32> {
        let more = self.below(u64::from(most.max(1)));
        let mut offsets: Vec<u32> = (0..more)
            .map(|_| self.below(u64::from(limit)) as u32)
            .collect();
        offsets.push(0);
        offsets.sort_unstable();
        offsets
    }

    fn coloured(&mut self, offsets: &[u32]) -> Vec<u64> {
        offsets
            .iter()
            .map(|&offset| pack(offset, self.coordinate()))
            .collect()
    }
}

/// Gives each run that has the coordinate of the one before another one, of the same worker.
pub fn part(runs: &mut [u64]) {
    for i in 1..runs.len() {
        let (before, named) = (coordinate(runs[i - 1]), coordinate(runs[i]));
        if before == named {
            runs[i] = pack(offset(runs[i]), named ^ 256);
        }
    }
}
