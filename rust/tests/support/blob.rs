// SPDX-License-Identifier: BSD-2-Clause OR GPL-2.0-or-later
// A small flattened devicetree, written token by token. The examples of the documentation include it.

/// The blocks of a blob as they grow.
#[derive(Default)]
struct Blob {
    structure: Vec<u8>,
    strings: Vec<u8>,
}

impl Blob {
    fn words(&mut self, words: &[u32]) {
        let bytes = words.iter().flat_map(|word| word.to_be_bytes());
        self.structure.extend(bytes);
    }

    fn bytes(&mut self, bytes: &[u8]) {
        self.structure.extend_from_slice(bytes);
        let whole = (self.structure.len() + 3) / 4 * 4;
        self.structure.resize(whole, 0);
    }

    fn begin(&mut self, name: &str) {
        self.words(&[1]);
        self.bytes(&[name.as_bytes(), &[0]].concat());
    }

    fn property(&mut self, name: &str, value: &[u8]) {
        let at = self.strings.len() as u32;
        self.strings.extend_from_slice(name.as_bytes());
        self.strings.push(0);
        self.words(&[3, value.len() as u32, at]);
        self.bytes(value);
    }

    fn cell(&mut self, name: &str, value: u32) {
        self.property(name, &value.to_be_bytes());
    }

    fn end(&mut self) {
        self.words(&[2]);
    }

    /// Header, empty memory reservation map, structure block, strings block.
    fn finish(mut self) -> Vec<u8> {
        self.words(&[9]);
        let [structure, strings] = [&self.structure, &self.strings].map(|block| block.len() as u32);
        let at = 40 + 16;
        let total = at + structure + strings;
        let header = [
            0xD00D_FEED,
            total,
            at,
            at + structure,
            40,
            17,
            16,
            0,
            strings,
            structure,
        ];
        let mut blob: Vec<u8> = header.iter().flat_map(|word| word.to_be_bytes()).collect();
        blob.resize(at as usize, 0);
        [blob, self.structure, self.strings].concat()
    }
}

/// A board of two cpu nodes with these `reg` and the phandles 1 and 2, and one cluster whose cores have these `cpu`.
pub fn two_cores(regs: [u32; 2], cpus: [u32; 2]) -> Vec<u8> {
    let mut blob = Blob::default();
    blob.begin("");
    blob.begin("cpus");
    blob.cell("#address-cells", 1);
    blob.cell("#size-cells", 0);
    for (reg, phandle) in regs.into_iter().zip(1..) {
        blob.begin(&format!("cpu@{reg:x}"));
        blob.property("device_type", b"cpu\0");
        blob.cell("reg", reg);
        blob.cell("phandle", phandle);
        blob.end();
    }
    blob.begin("cpu-map");
    blob.begin("cluster0");
    for (core, cpu) in cpus.into_iter().enumerate() {
        blob.begin(&format!("core{core}"));
        blob.cell("cpu", cpu);
        blob.end();
    }
    (0..4).for_each(|_| blob.end());
    blob.finish()
}
