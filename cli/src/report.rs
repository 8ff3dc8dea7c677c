// SPDX-License-Identifier: BSD-2-Clause OR GPL-2.0-or-later
//! A refusal in words: a line for people, an object for programs.

use crate::details::{self, Told};
use crate::escape::{for_json, for_terminal};
use crate::fault::Fault;
use crate::output::SCHEMA;
use std::fmt;
use sunderwath::{Place, Rule};

#[derive(Clone, Debug, PartialEq, Eq)]
pub struct Report {
    pub rule: Rule,
    /// A record, or for 33 the offset from the file's start.
    pub place: u32,
    /// The path of the node, where one is known.
    pub node: Option<String>,
    /// The name of the property that the number speaks of, which may be missing.
    pub property: Option<String>,
    /// The rule, and what stands there.
    pub message: String,
}

/// `sentence (details)`; a missing map is told in few words: `no cpu-map; 4 cpu nodes`
fn message(told: &Told) -> String {
    let rule = told.refusal.rule;
    let sentence = rule.sentence();
    match details::details(told) {
        None => sentence.to_string(),
        Some(details) if rule == Rule::CpuMapMissing => format!("{sentence}; {details}"),
        Some(details) => format!("{sentence} ({details})"),
    }
}

impl Report {
    pub fn of_blob(fault: &Fault) -> Self {
        Report {
            rule: fault.rule,
            place: fault.place,
            node: fault.node().map(String::from),
            property: None,
            message: fault.message(),
        }
    }

    pub fn of_board(told: &Told) -> Self {
        Report {
            rule: told.refusal.rule,
            place: told.refusal.place,
            node: Some(told.tables.path(told.node())),
            property: told.property_name(),
            message: message(told),
        }
    }

    /// The object that `--json` prints.
    pub fn json(&self, file: &str) -> String {
        let or_null = |text: &Option<String>| text.as_deref().map_or("null".to_string(), for_json);
        format!(
            "{{\n  \"schema\": {SCHEMA},\n  \"file\": {},\n  \"number\": {},\n  \"check\": {},\n  \
             \"place\": {},\n  \"node\": {},\n  \"property\": {},\n  \"message\": {}\n}}\n",
            for_json(file),
            self.rule.number(),
            for_json(self.rule.check_name()),
            self.place,
            or_null(&self.node),
            or_null(&self.property),
            for_json(&self.message)
        )
    }
}

/// `ERROR 21 (cpu_map_order): /cpus/cpu-map/cluster0/core6: sentence (core6, of 6 siblings)`
impl fmt::Display for Report {
    fn fmt(&self, f: &mut fmt::Formatter) -> fmt::Result {
        let (number, check) = (self.rule.number(), self.rule.check_name());
        write!(f, "ERROR {number} ({check}): ")?;
        if let Some(node) = &self.node {
            write!(f, "{}: ", for_terminal(node))?;
        }
        // The sentences of the other numbers name the property.
        if let (Place::Property, Some(property)) = (self.rule.place(), &self.property) {
            write!(f, "{}: ", for_terminal(property))?;
        }
        write!(f, "{}", for_terminal(&self.message))
    }
}

#[cfg(test)]
mod tests {
    use super::*;
    use crate::tables::Tables;
    use sunderwath::Kind;
    use sunderwath::Refusal;

    fn of_blob(fault: Fault) -> String {
        Report::of_blob(&fault).to_string()
    }

    #[test]
    fn blobs() {
        let fault = Fault::at(0x58, "FDT_PROP after a child node".to_string());
        let expected = "ERROR 33 (blob_structure): at offset 0x58: \
            the token stream breaks the specification's structure (FDT_PROP after a child node)";
        assert_eq!(of_blob(fault), expected);
        let fault = Fault::of_blob(Rule::BlobCpus, "it has 0".to_string());
        let expected =
            "ERROR 34 (blob_cpus): /: the root must have exactly one child named cpus (it has 0)";
        assert_eq!(of_blob(fault), expected);
        let fault = Fault::of_blob(Rule::TableSpace, String::new());
        let expected = "ERROR 35 (table_space): a table is too short for the records of /cpus";
        assert_eq!(of_blob(fault), expected);
    }

    fn of_board(tables: &Tables, rule: Rule, place: u32) -> Report {
        Report::of_board(&Told {
            tables,
            kind: Kind::Arm64,
            refusal: Refusal {
                rule,
                place,
                property: None,
            },
        })
    }

    #[test]
    fn boards() {
        let nodes = [(0, "cpus"), (0, "cpu@0"), (1, "a\nb")];
        let tables = Tables::of_nodes(&nodes).with(2, "c\\", &[]);
        let sentence = "the node has this property twice";
        let report = of_board(&tables, Rule::DuplicateProperty, 0);
        let line = format!("ERROR 8 (duplicate_property): /cpus/cpu@0/a\\nb: c\\\\: {sentence}");
        assert_eq!(report.to_string(), line);
        let object = format!(
            r#"{{
  "schema": 2,
  "file": "a \"b\".dtb",
  "number": 8,
  "check": "duplicate_property",
  "place": 0,
  "node": "/cpus/cpu@0/a\u000ab",
  "property": "c\\",
  "message": "{sentence}"
}}
"#
        );
        assert_eq!(report.json("a \"b\".dtb"), object);
        let report = of_board(&tables, Rule::CpuMapDepth, 2);
        assert_eq!(
            (report.property, report.message.as_str()),
            (None, "more than four clusters are nested")
        );
    }
}
