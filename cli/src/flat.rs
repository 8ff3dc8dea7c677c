// SPDX-License-Identifier: BSD-2-Clause OR GPL-2.0-or-later
//! Reads a blob into tables, a long one cut down for it.

use crate::cut;
use crate::fault::Fault;
use crate::header;
use crate::stream;
use crate::tables::Tables;
use sunderwath::{Refusal, Rule, MAX_BLOB, NODE_WORDS, PROPERTY_WORDS};

/// A node takes at least 12 bytes (two tokens and a name), and so does a property (a token and two words).
const MOST_RECORDS: usize = MAX_BLOB / 12;

/// Node words and property words of a blob.
fn records(blob: &[u8]) -> Result<(Vec<u32>, Vec<u32>), Refusal> {
    let mut nodes = vec![0; NODE_WORDS * MOST_RECORDS];
    let mut props = vec![0; PROPERTY_WORDS * MOST_RECORDS];
    let records = sunderwath::read_flat(blob, &mut nodes, &mut props)?;
    nodes.truncate(NODE_WORDS * records.nodes);
    props.truncate(PROPERTY_WORDS * records.properties);
    Ok((nodes, props))
}

/// The reason of a refusal, where looking at the blob again finds the same number and place.
fn reason(blob: &[u8], refusal: Refusal) -> String {
    let found = header::blocks(blob).and_then(|blocks| stream::survey(blob, &blocks));
    match found {
        Err(fault) if (fault.rule, fault.place) == (refusal.rule, refusal.place) => fault.reason,
        Ok(survey) if refusal.rule == Rule::BlobCpus => format!("it has {}", survey.cpus),
        _ => String::new(),
    }
}

/// Reads a blob of at most `MAX_BLOB` bytes.
fn read_blob(blob: Vec<u8>) -> Result<Tables, Fault> {
    match records(&blob) {
        Ok((nodes, props)) => Ok(Tables {
            nodes,
            props,
            pool: blob,
        }),
        Err(refusal) => Err(Fault {
            rule: refusal.rule,
            place: refusal.place,
            reason: reason(&blob, refusal),
        }),
    }
}

/// What was read, and what the reader of the output should know of it.
#[derive(Debug)]
pub struct Reading {
    pub tables: Tables,
    pub note: Option<String>,
}

/// Reads a file: bytes behind the header's total size are left out, and a longer blob is cut down to /cpus first.
pub fn read(mut file: Vec<u8>) -> Result<Reading, Fault> {
    file.truncate(header::blob_length(&file));
    if file.len() <= MAX_BLOB {
        let tables = read_blob(file)?;
        return Ok(Reading { tables, note: None });
    }
    let mut cut = cut::cut(&file)?;
    let blob = std::mem::take(&mut cut.blob);
    let tables = read_blob(blob).map_err(|fault| match fault.rule {
        Rule::BlobStructure => Fault::at(cut.original(fault.place as usize), fault.reason),
        _ => fault,
    })?;
    let note = format!("blob of {} bytes: only /cpus was read", file.len());
    Ok(Reading {
        tables,
        note: Some(note),
    })
}
