// SPDX-License-Identifier: BSD-2-Clause OR GPL-2.0-or-later
//! Builds blobs token by token, right or wrong.

pub const BEGIN: u32 = 1;
pub const CLOSE: u32 = 2;
pub const PROP: u32 = 3;
pub const NOP: u32 = 4;
pub const END: u32 = 9;

/// Where the structure block stands: behind the header and an empty reservation map.
pub const START: usize = 56;

#[derive(Clone, Default)]
pub struct Builder {
    structure: Vec<u8>,
    pub strings: Vec<u8>,
}

impl Builder {
    /// With a root that is open.
    pub fn rooted() -> Self {
        Builder::default().begin("")
    }

    /// The offset from the blob's start at which the next token will stand.
    pub fn offset(&self) -> usize {
        START + self.structure.len()
    }

    pub fn words(mut self, words: &[u32]) -> Self {
        let bytes = words.iter().flat_map(|word| word.to_be_bytes());
        self.structure.extend(bytes);
        self
    }

    /// Bytes, and padding to the next word.
    pub fn bytes(mut self, bytes: &[u8]) -> Self {
        self.structure.extend_from_slice(bytes);
        let length = (self.structure.len() + 3) & !3;
        self.structure.resize(length, 0);
        self
    }

    pub fn begin(self, name: &str) -> Self {
        self.begin_bytes(name.as_bytes())
    }

    pub fn begin_bytes(self, name: &[u8]) -> Self {
        self.words(&[BEGIN]).bytes(&[name, &[0]].concat())
    }

    pub fn close(self) -> Self {
        self.words(&[CLOSE])
    }

    /// The offset of a name in the strings block, where it is put if it is new.
    fn name(&mut self, name: &str) -> u32 {
        let entry = format!("{name}\0").into_bytes();
        let found = self.strings.windows(entry.len()).position(|w| w == entry);
        let at = found.unwrap_or(self.strings.len());
        if found.is_none() {
            self.strings.extend(entry);
        }
        at as u32
    }

    pub fn prop(mut self, name: &str, value: &[u8]) -> Self {
        let name = self.name(name);
        let head = [PROP, value.len() as u32, name];
        self.words(&head).bytes(value)
    }

    pub fn cell(self, name: &str, value: u32) -> Self {
        self.prop(name, &value.to_be_bytes())
    }

    pub fn cells(self, name: &str, values: &[u32]) -> Self {
        let bytes: Vec<u8> = values
            .iter()
            .flat_map(|value| value.to_be_bytes())
            .collect();
        self.prop(name, &bytes)
    }

    /// A cpus node that is open, with its cell counts.
    pub fn open_cpus(self, address_cells: u32) -> Self {
        self.begin("cpus")
            .cell("#address-cells", address_cells)
            .cell("#size-cells", 0)
    }

    /// A cpu node that is open, with its type.
    pub fn open_cpu(self, name: &str) -> Self {
        self.begin(name).prop("device_type", b"cpu\0")
    }

    /// A cpu node that is sound if there is one address cell; its phandle is one more than its number.
    pub fn cpu(self, number: u32) -> Self {
        self.open_cpu(&format!("cpu@{number}"))
            .cell("reg", number)
            .cell("phandle", number + 1)
            .close()
    }

    /// A leaf that names a cpu node.
    pub fn leaf(self, name: &str, phandle: u32) -> Self {
        self.begin(name).cell("cpu", phandle).close()
    }

    /// A cpus node of two processors.
    pub fn cpus(self) -> Self {
        self.open_cpus(1)
            .begin("cpu-map")
            .begin("cluster0")
            .leaf("core0", 1)
            .leaf("core1", 2)
            .close()
            .close()
            .cpu(0)
            .cpu(1)
            .close()
    }

    /// A node that has nothing to do with the board.
    pub fn padding(self, bytes: usize) -> Self {
        self.begin("padding")
            .prop("filler", &vec![0x55; bytes])
            .close()
    }

    /// The blob as it is, its stream perhaps not closed.
    pub fn blob(&self) -> Vec<u8> {
        let strings_at = self.offset() as u32;
        let (structure, strings) = (self.structure.len() as u32, self.strings.len() as u32);
        let total = strings_at + strings;
        let start = START as u32;
        let header = [
            0xD00D_FEED,
            total,
            start,
            strings_at,
            40,
            17,
            16,
            0,
            strings,
            structure,
            0,
            0,
            0,
            0,
        ];
        let mut blob: Vec<u8> = header.iter().flat_map(|word| word.to_be_bytes()).collect();
        blob.extend_from_slice(&self.structure);
        blob.extend_from_slice(&self.strings);
        blob
    }

    /// Closes the root and the stream.
    pub fn finish(self) -> Vec<u8> {
        self.words(&[CLOSE, END]).blob()
    }
}

/// The blob of a board of two processors.
pub fn small() -> Vec<u8> {
    Builder::rooted().cpus().finish()
}

/// A board of one cluster with these MPIDRs, two cells each.
pub fn with_mpidrs(mpidrs: &[u64]) -> Vec<u8> {
    let cpu = |board: Builder, (at, mpidr): (u32, &u64)| {
        let board = board.open_cpu(&format!("cpu@{mpidr:x}"));
        let board = board.prop("reg", &mpidr.to_be_bytes());
        board.cell("phandle", at + 1).close()
    };
    let board = Builder::rooted().open_cpus(2);
    let board = (0..).zip(mpidrs).fold(board, cpu);
    let board = board.begin("cpu-map").begin("cluster0");
    let count = mpidrs.len() as u32;
    let board = (0..count).fold(board, |board, core| {
        board.leaf(&format!("core{core}"), core + 1)
    });
    board.close().close().close().finish()
}

/// The blob with one word changed.
pub fn patched(blob: &[u8], at: usize, word: u32) -> Vec<u8> {
    let mut changed = blob.to_vec();
    changed[at..at + 4].copy_from_slice(&word.to_be_bytes());
    changed
}
