// SPDX-License-Identifier: BSD-2-Clause OR GPL-2.0-or-later
//! The blob call holds 1,024 nodes and 1,024 properties of the `/cpus` subtree;
//! what stands outside it does not count.

use sunderwath_tests::answer::NO_PROPERTY;
use sunderwath_tests::build::flat::items;
use sunderwath_tests::build::flat_form::{write, Form};
use sunderwath_tests::build::loader::{Lent, ROW_BYTES};
use sunderwath_tests::build::shapes::fill_up;
use sunderwath_tests::build::worked::{cores, nested, whole_case};
use sunderwath_tests::build::Node;
use sunderwath_tests::compare_blob::agreed_blob;
use sunderwath_tests::second::Told;
use sunderwath_tests::width::WIDTHS;

const MOST: usize = 1024;
const REFUSED: [u32; 4] = [35, 0, NO_PROPERTY, 0];

fn plain(root: &Node) -> Vec<u8> {
    write(&items(root), &Form::default())
}

fn told(blob: &[u8]) -> Told {
    agreed_blob(blob, Lent::default())
}

/// The whole case with other nodes and properties, up to these counts.
fn whole_case_of(nodes: usize, props: usize) -> Node {
    let mut cpus = whole_case();
    fill_up(&mut cpus, nodes, props);
    assert_eq!((cpus.count(), cpus.prop_count()), (nodes, props));
    cpus
}

/// A node with many others in it, and as many properties.
fn outside(count: usize) -> Node {
    let mut node = Node::new("soc");
    node.children = vec![Node::new("x").with("p0", []); count];
    node
}

/// `/cpus` with so many nodes before it and behind it.
fn beside(cpus: Node, before: usize, behind: usize) -> Node {
    Node::new("")
        .child(outside(before))
        .child(cpus)
        .child(outside(behind))
}

#[test]
fn around_both_limits() {
    let wanted = told(&plain(&Node::new("").child(whole_case())));
    let near = [7, MOST - 2, MOST - 1, MOST, MOST + 1, MOST + 2, 1400];
    let near_props = [10, MOST - 2, MOST - 1, MOST, MOST + 1, MOST + 2, 1400];
    let mut refused = 0;
    for nodes in near {
        for props in near_props {
            for (before, behind) in [(0, 0), (500, 0), (0, 500), (250, 250)] {
                let blob = plain(&beside(whole_case_of(nodes, props), before, behind));
                let told = told(&blob);
                if nodes > MOST || props > MOST {
                    assert_eq!(told.words(), Some(REFUSED), "{nodes} {props}");
                    refused += 1;
                } else {
                    assert_eq!(told, wanted, "{nodes} {props}");
                }
            }
        }
    }
    println!("35 told of {refused} blobs around the limits");
}

/// Far more outside `/cpus` than the call holds inside.
#[test]
fn nodes_and_properties_outside() {
    let wanted = told(&plain(&Node::new("").child(whole_case())));
    for (before, behind) in [(1300, 0), (0, 1300), (1200, 1200), (1023, 2), (1, 1024)] {
        let root = beside(whole_case(), before, behind);
        assert!(root.count() > MOST && root.prop_count() > MOST);
        assert_eq!(told(&plain(&root)), wanted);
    }
    // One more inside is too many, whatever is outside.
    for (nodes, props) in [(MOST + 1, 10), (7, MOST + 1)] {
        let root = beside(whole_case_of(nodes, props), 600, 600);
        assert_eq!(told(&plain(&root)).words(), Some(REFUSED));
    }
}

/// Properties of the root and of its other children do not count, those of
/// `/cpus` itself do.
#[test]
fn properties_of_single_nodes() {
    let with = |node: &mut Node, count: usize| {
        let props = (0..count).map(|at| (format!("p{at}").into_bytes(), Vec::new()));
        node.props.extend(props);
    };
    for count in [MOST - 10, MOST - 9] {
        let mut cpus = whole_case();
        with(&mut cpus, count);
        let mut root = Node::new("").child(cpus);
        with(&mut root, 1500);
        let number = if count + 10 > MOST { 35 } else { 0 };
        assert_eq!(told(&plain(&root)).number(), number);
    }
}

/// Nodes nested below a cpu and in the map, up to the limit and beyond it.
#[test]
fn nested_nodes() {
    for (length, in_map) in [
        (MOST, false),
        (MOST, true),
        (MOST + 1, false),
        (MOST + 1, true),
    ] {
        let mut cpus = nested(1);
        let mut chain = Node::new("cluster0");
        let name = if in_map { "cluster0" } else { "cache" };
        chain.name = name.as_bytes().to_vec();
        let below = length - cpus.count() - 1;
        for _ in 0..below {
            chain = Node {
                children: vec![chain],
                ..Node::new(name)
            };
        }
        // The only cpu is the last record, the map the first child.
        let at = if in_map { 1 } else { cpus.count() - 1 };
        cpus.at(at).children.push(chain);
        assert_eq!(cpus.count(), length);
        let number = match (length > MOST, in_map) {
            (true, _) => 35,
            (_, true) => 21,
            _ => 0,
        };
        assert_eq!(told(&plain(&Node::new("").child(cpus))).number(), number);
    }
}

/// A cpu and its leaf have four properties, `/cpus` two: 255 cpus are the most.
/// More cpu nodes than 256 are told of where they have no properties.
#[test]
fn most_cpus() {
    let board = |cpus: u64| Node::new("").child(cores(&(0..cpus).collect::<Vec<u64>>()));
    let all = told(&plain(&board(255)));
    assert_eq!(all.words(), Some([0, 0, NO_PROPERTY, 255]));
    for (rows, number) in [(255 * ROW_BYTES, 0), (255 * ROW_BYTES - 1, 27)] {
        let lent = Lent {
            rows,
            start: 3,
            ..Lent::default()
        };
        assert_eq!(agreed_blob(&plain(&board(255)), lent).number(), number);
    }
    assert_eq!(told(&plain(&board(256))).words(), Some(REFUSED));
    let mut bare = cores(&[0]);
    bare.children.extend(vec![Node::new("cpu@1"); 256]);
    assert_eq!(
        told(&plain(&Node::new("").child(bare.clone()))).number(),
        10
    );
    bare.children.pop();
    assert_eq!(told(&plain(&Node::new("").child(bare))).number(), 11);
}

/// 35 is told before any rule of a board.
#[test]
fn before_rules_of_boards() {
    for (nodes, props) in [(MOST + 1, 10), (7, MOST + 1), (MOST + 1, MOST + 1)] {
        let mut cpus = whole_case_of(nodes, props);
        cpus.at(1).name = vec![b'n'; 65];
        cpus.remove("#size-cells");
        cpus.set("p-extra", []);
        for width in WIDTHS.into_iter().chain([7]) {
            let lent = Lent {
                width,
                rows: 0,
                ..Lent::default()
            };
            let told = agreed_blob(&plain(&Node::new("").child(cpus.clone())), lent);
            assert_eq!(told.words(), Some(REFUSED));
        }
    }
}
