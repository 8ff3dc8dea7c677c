// SPDX-License-Identifier: BSD-2-Clause OR GPL-2.0-or-later
//! Whatever `--json` prints is read by Python's json and keeps docs/schema.json, which tests/check_json.py goes through. Needs
//! python3.

use crate::boards::names;
use crate::builder::{small, Builder};
use crate::generator::Generator;
use crate::run::{board, directory, run, run_in, run_on_input, text, written};
use std::fs;
use std::path::{Path, PathBuf};
use std::process::{Command, Output};
use sunderwath::Kind;
use sunderwath_cli::escape::characters;
use sunderwath_cli::kind::Wording;

const SEED: u64 = 0x5EED_0019;

/// Documents for Python, in an empty directory of their own.
struct Documents {
    directory: PathBuf,
    count: usize,
}

impl Documents {
    fn new(name: &str) -> Self {
        Documents {
            directory: directory(&format!("schema-{name}")),
            count: 0,
        }
    }

    fn add(&mut self, document: &[u8]) {
        self.count += 1;
        let file = self.directory.join(format!("{}.json", self.count));
        fs::write(file, document).expect("the file is written");
    }

    /// With the path that the first row's cpu node has.
    fn add_with_cpu(&mut self, document: &[u8], path: &str) {
        self.add(document);
        let file = self.directory.join(format!("{}.cpu", self.count));
        fs::write(file, path).expect("the file is written");
    }

    fn checked(&self) -> Output {
        let here = Path::new(env!("CARGO_MANIFEST_DIR"));
        Command::new("python3")
            .arg(here.join("tests/check_json.py"))
            .arg(here.join("../docs/schema.json"))
            .arg(&self.directory)
            .output()
            .expect("python3 is installed")
    }

    fn check(&self) {
        let output = self.checked();
        let told = text(&output.stdout);
        assert!(output.status.success(), "{told}{}", text(&output.stderr));
        assert_eq!(told, format!("{} documents, 0 wrong\n", self.count));
    }
}

#[test]
fn every_board() {
    let mut documents = Documents::new("boards");
    let files: Vec<String> = names().iter().map(|name| board(name)).collect();
    let files: Vec<&str> = files.iter().map(String::as_str).collect();
    for kind in Kind::ALL.map(Kind::name) {
        for file in &files {
            documents.add(&run(&["-qjb", kind, file]).stdout);
            documents.add(&run(&["--plan", "-qjb", kind, file]).stdout);
            documents.add(&run(&["-qcjb", kind, file]).stdout);
        }
        for options in [&["-qjb"][..], &["-qcjb"], &["--plan", "-qjb"]] {
            documents.add(&run(&[options, &[kind], &files[..]].concat()).stdout);
        }
    }
    assert_eq!(documents.count, 3 * (3 * files.len() + 3));
    documents.check();
}

impl Generator {
    /// Bytes of a name, of any kind or of those that formats and terminals treat as their own.
    fn name(&mut self) -> Vec<u8> {
        const ODD: &[u8] =
            b"\"\\/\n\r\t\x1b\x7f\x01'\x80\xc3\xa9\xe2\x80\xa8\xf0\x9f\x92\xa9\xed\xa0\xff,{}[]:u0";
        let length = 1 + self.below(24);
        let any = self.below(2) == 0;
        let byte = |_| match any {
            true => 1 + self.below(255) as u8,
            false => ODD[self.below(ODD.len() as u64) as usize],
        };
        (0..length).map(byte).collect()
    }
}

/// Three cpu nodes of these names, the first one in the map; accepted or refused as the map has all or not.
fn board_of(names: &[Vec<u8>; 3], mapped: u32) -> Vec<u8> {
    let mut board = Builder::rooted().open_cpus(1);
    for (name, number) in names.iter().zip(0..) {
        board = board.begin_bytes(&[b"cpu@", &name[..]].concat());
        board = board.prop("device_type", b"cpu\0").cell("reg", number);
        board = board.cell("phandle", number + 1).close();
    }
    board = board.begin("cpu-map").begin("cluster0");
    for core in 0..mapped {
        board = board.leaf(&format!("core{core}"), core + 1);
    }
    board.close().close().close().finish()
}

#[test]
fn generated_names() {
    println!("seed {SEED:#x}");
    let mut generator = Generator(SEED);
    let mut documents = Documents::new("names");
    for round in 0..100 {
        let names = [(); 3].map(|()| generator.name());
        let output = run_on_input(&["-j", "-"], &board_of(&names, 3));
        assert_eq!(output.status.code(), Some(0), "round {round}");
        let path = format!("/cpus/{}", characters(&[b"cpu@", &names[0][..]].concat()));
        documents.add_with_cpu(&output.stdout, &path);
        let output = run_on_input(&["-jq", "-"], &board_of(&names, 2));
        assert_eq!(output.status.code(), Some(1), "round {round}");
        documents.add(&output.stdout);
    }
    documents.check();
}

/// A board whose leaves have a property of such a name in place of `cpu`.
fn without_cpu(name: &[u8]) -> Vec<u8> {
    let mut blob = small();
    let at = blob.windows(4).rposition(|window| window == b"cpu\0");
    let at = at.expect("the strings block has the name");
    let odd = name.iter().cycle();
    blob[at..at + 3]
        .iter_mut()
        .zip(odd)
        .for_each(|(byte, &odd)| *byte = odd);
    blob
}

/// Names of properties stand in the messages of missing ones, names of files in every object.
#[test]
fn names_of_properties_and_files() {
    println!("seed {SEED:#x}");
    let mut generator = Generator(SEED + 1);
    let mut documents = Documents::new("properties");
    let boards = directory("schema-files");
    for round in 0..50 {
        let mut name = generator.name();
        let blob = without_cpu(&name);
        name.retain(|&byte| byte != b'/');
        let file = [b"f", &name[..]].concat();
        written(&boards, &file, &blob);
        let output = run_in(&boards, &[b"-qj", &file, &file]);
        assert_eq!(output.status.code(), Some(1), "round {round}");
        documents.add(&output.stdout);
    }
    documents.check();
}

impl Documents {
    /// Each one as it is changed, once, from the second text to the third.
    fn add_changed(&mut self, changes: &[(&Vec<u8>, &str, &str)]) {
        for (document, old, new) in changes {
            let changed = text(document).replacen(old, new, 1);
            assert_ne!(changed.as_bytes(), &document[..], "{old}");
            self.add(changed.as_bytes());
        }
    }

    /// All of them are told to be wrong.
    fn check_wrong(&self) {
        let output = self.checked();
        assert_eq!(output.status.code(), Some(1), "{}", text(&output.stderr));
        let (count, told) = (self.count, text(&output.stdout));
        let all = format!("\n{count} documents, {count} wrong\n");
        assert!(told.ends_with(&all), "{told}");
    }
}

/// A document that is not right is told: what checks them is tried here.
#[test]
fn wrong_documents() {
    let accepted = run(&["-j", &board("whole-case")]).stdout;
    let refused = run(&["-qj", &board("refused-24-cpu0")]).stdout;
    let mut documents = Documents::new("wrong");
    documents.add_changed(&[
        (&accepted, "\"schema\": 2", "\"schema\": 1"),
        (&accepted, "\"schema\": 2", "\"schema\": true"),
        (&accepted, "\"count\": 2", "\"count\": \"2\""),
        (&accepted, "  \"count\": 2,\n", ""),
        (&accepted, "\"width\": 64", "\"width\": 5"),
        (&accepted, "\"mask\": \"0x100\"", "\"mask\": 256"),
        (&accepted, "\"slot\": 1", "\"slot\": null"),
        (&accepted, "\"core\": 0", "\"core\": 0, \"core\": 0"),
        (&accepted, "\"clusters\": [0]", "\"clusters\": []"),
        (&accepted, "[0, 8, 15, 31]", "[0, 8, 15]"),
        (&accepted, "\"thread\": null", "\"thread\": NaN"),
        (&refused, "\"place\": 4", "\"place\": -1"),
        (&refused, "  \"place\": 4,\n", ""),
        (&refused, "\"node\": \"/", "\"node\": \""),
        (&refused, "\"property\": \"cpu\"", "\"property\": 5"),
        (&refused, "\"number\": 24", "\"number\": 24, \"more\": 1"),
        (&refused, "core1", "core\n1"),
    ]);
    let late = text(&accepted).replacen("  \"schema\": 2,\n", "", 1);
    let late = late.replacen("\"count\"", "\"schema\": 2, \"count\"", 1);
    documents.add(late.as_bytes());
    documents.check_wrong();
}

/// A plan has all its members, and each row its slot under it; where there is none, no row has.
#[test]
fn wrong_plans() {
    let plain = run(&["-j", &board("whole-case")]).stdout;
    let planned = run(&["-j", "--plan", &board("whole-case")]).stdout;
    let harts = run(&["-qjb", "riscv", "--plan", &board("sparse-harts")]).stdout;
    let mut documents = Documents::new("wrong-plans");
    documents.add_changed(&[
        (&planned, "\"positions\": [8]", "\"positions\": [24]"),
        (&planned, "\"positions\": [8]", "\"positions\": 8"),
        (&planned, "\"slots_after\": 2", "\"slots_after\": 0"),
        (&planned, ", \"saved\": 0", ""),
        (&planned, "\"saved\": 0", "\"saved\": 0, \"more\": 1"),
        (&planned, "\"planned\": 1", "\"planned\": null"),
        (&planned, ", \"planned\": 1", ""),
        (&planned, "\"plan\": {", "\"plane\": {"),
        (&plain, "\"slot\": 1", "\"slot\": 1, \"planned\": 1"),
        (&plain, "\"bits\": 1,", "\"bits\": 1, \"plan\": null,"),
        (&harts, "\"planned\": null", "\"planned\": 0"),
        (&harts, "  \"plan\": null,\n", ""),
    ]);
    documents.check_wrong();
}
