//! A plain model of the store (document 01, "Sizes", "Uplink", "Refusals by number"): the files with their bytes, and which blocks are free.
use reference::equation::Equation;
use reference::header::{self, Fault};

/// The refusal of a file's items, 0 for none: 7, 14 or 6.
fn check_items(file: &[u8]) -> u8 {
    match header::check(file, file.len() as u32) {
        Ok(_) => 0,
        // the items are looked at before the values of some of them
        Err(Fault::WrongBodyOffset | Fault::WrongFileSize) => 0,
        Err(Fault::WrongHeaderSum | Fault::WrongBodySum) => 0,
        Err(fault) => fault.number(),
    }
}

pub struct File {
    pub number: u32,
    pub size: u32,
    pub bytes: Vec<u8>,
    /// 0 while the file is partial
    pub time: u32,
    /// rising
    pub blocks: Vec<usize>,
}

pub struct Model {
    pub free: Vec<bool>,
    pub files: Vec<Option<File>>,
    /// the last file number and the last upload time given
    pub last: u32,
    pub latest: u32,
}

impl Model {
    pub fn new(blocks: usize, files: usize) -> Model {
        Model {
            free: vec![true; blocks],
            files: (0..files).map(|_| None).collect(),
            last: 0,
            latest: 0,
        }
    }

    pub fn free_count(&self) -> usize {
        self.free.iter().filter(|&&f| f).count()
    }

    /// The slices that hold this store.
    pub fn map(&self) -> Vec<u64> {
        let word = |w: &[bool]| (0..w.len()).filter(|&k| w[k]).fold(0, |m, k| m | 1u64 << k);
        self.free.chunks(64).map(word).collect()
    }

    pub fn owner(&self) -> Vec<u16> {
        let mut owner = vec![0; self.free.len()];
        for (place, file) in self.files.iter().enumerate() {
            for &b in file.iter().flat_map(|f| &f.blocks) {
                owner[b] = place as u16 + 1;
            }
        }
        owner
    }

    pub fn table(&self) -> Vec<u32> {
        let record = |f: &Option<File>| match f {
            Some(f) => [f.number, f.size, f.bytes.len() as u32, f.time],
            None => [0; 4],
        };
        self.files.iter().flat_map(record).collect()
    }

    /// 33 for a place that no store has, 35 for one without a file.
    fn file(&self, place: usize) -> Result<&File, u8> {
        if 256 <= place {
            return Err(33);
        }
        self.files.get(place).and_then(Option::as_ref).ok_or(35)
    }

    fn file_mut(&mut self, place: usize) -> &mut File {
        self.files[place].as_mut().expect("a file")
    }

    pub fn begin(&mut self, size: u32) -> Result<usize, u8> {
        if self.last == u32::MAX {
            return Err(3);
        }
        let place = self.files.iter().position(Option::is_none).ok_or(13)?;
        let needed = (size as usize + 255) / 256;
        if self.free_count() < needed {
            return Err(13);
        }
        let blocks: Vec<usize> = (0..self.free.len())
            .filter(|&b| self.free[b])
            .take(needed)
            .collect();
        for &b in &blocks {
            self.free[b] = false;
        }
        self.last += 1;
        self.files[place] = Some(File {
            number: self.last,
            size,
            bytes: Vec::new(),
            time: 0,
            blocks,
        });
        Ok(place)
    }

    pub fn append(&mut self, place: usize, more: &[u8]) -> u8 {
        match self.file(place) {
            Err(refused) => refused,
            Ok(f) if (f.size as usize) < f.bytes.len() + more.len() => 16,
            Ok(_) => {
                self.file_mut(place).bytes.extend_from_slice(more);
                0
            }
        }
    }

    pub fn discard(&mut self, place: usize) -> u8 {
        if let Err(refused) = self.file(place) {
            return refused;
        }
        for b in self.files[place].take().expect("a file").blocks {
            self.free[b] = true;
        }
        0
    }

    pub fn check(&self, place: usize) -> u8 {
        match self.file(place) {
            Err(refused) => refused,
            Ok(f) => match header::check(&f.bytes, f.size) {
                Err(fault) => fault.number(),
                Ok(_) => 0,
            },
        }
    }

    /// The refusal of `complete`, 0 for none: only the items are looked at.
    pub fn completes(&self, place: usize) -> u8 {
        match self.file(place) {
            Err(refused) => refused,
            Ok(f) => check_items(&f.bytes),
        }
    }

    /// Completes a file whose items are not refused. The tests complete no other one than a file that `check` accepts.
    pub fn complete(&mut self, place: usize, time: u32) -> u8 {
        let refused = self.completes(place);
        if refused == 0 {
            let f = self.file_mut(place);
            let found = header::check(&f.bytes, f.size).expect("a file that is accepted");
            header::set_server_fields(&mut f.bytes, &found, f.number, time);
            f.time = time;
            self.latest = self.latest.max(time);
        }
        refused
    }

    pub fn select(&self, eq: &[u8], selected: &mut [u32], most: usize) -> Result<usize, u8> {
        if !(1..=50).contains(&most) || selected.len() < most || 256 < eq.len() {
            return Err(33);
        }
        let equation = Equation::parse(eq).map_err(|fault| fault.number())?;
        let mut found: Vec<&File> = self
            .files
            .iter()
            .flatten()
            .filter(|f| f.time != 0 && equation.holds(&f.bytes))
            .collect();
        found.sort_by_key(|f| f.time);
        found.truncate(most);
        selected[..most].fill(0);
        for (s, f) in selected.iter_mut().zip(&found) {
            *s = f.number;
        }
        Ok(found.len())
    }
}
