//! Which part of the text is a node's own?

use std::fmt;

use crate::call::{boxed, edge, wrong_answers, Asked, Call, Case, Edge, Family, Wanted};
use crate::dice::{channels, formula, Dice, ODD_NUMBERS};
use crate::edges::Columns;
use crate::fence::vast;
use crate::lent::Lender;
use crate::reference::{accepted, packed, yes, Answer, Refusal};
use crate::texts::spoiled;

extern "C" {
    fn tuv_node_text(text: *const u8, text_length: usize, c: u32, k: u32, node: u32) -> u64;
}

pub const CALL: Call = Call {
    name: "node text",
    line: "node",
    codes: &[1, 2, 3, 4, 5, 6, 7, 8, 71],
    edges,
    on_text,
    families: &[Family::new("every node's text", 60_000, every_node)],
    long_families: &[],
    vast: &[("a length that is small modulo 2^32", vast_length)],
};

struct NodeText {
    asked: Asked,
    node: u32,
}

impl fmt::Display for NodeText {
    fn fmt(&self, f: &mut fmt::Formatter) -> fmt::Result {
        write!(f, "{}, node {}", self.asked, self.node)
    }
}

impl Case for NodeText {
    fn call(&self) -> &'static str {
        CALL.name
    }

    fn wanted(&self) -> Wanted {
        packed(self.found()).into()
    }

    fn wrong_in(&self, lender: &mut Lender, wanted: &Wanted) -> Option<String> {
        let NodeText { asked: Asked { text, c, k }, node } = self;
        let lent_text = lender.lend(text);
        // SAFETY: the pointer is to as many bytes as is said, or null with none.
        wanted.wrong_answer(unsafe { tuv_node_text(lent_text, text.len(), *c, *k, *node) })
    }
}

impl NodeText {
    /// By the second implementation.
    fn found(&self) -> Result<Answer, Refusal> {
        let NodeText { asked: Asked { text, c, k }, node } = self;
        let nodes = accepted(text, *c, *k)?.nodes;
        yes(1 <= *node && *node as usize <= nodes.len(), 8)?;
        let (start, length) = nodes[*node as usize - 1];
        Ok((71, (start + 256 * length) as u32))
    }
}

fn edges(kind: &str, columns: &mut Columns) -> Vec<Edge> {
    match kind {
        "node" => {
            let (asked, node) = (columns.asked(), columns.number());
            vec![edge(NodeText { asked, node }, columns.answer())]
        }
        "text" => {
            let (asked, answer) = (columns.asked(), columns.answer());
            [0, 1].map(|node| edge(NodeText { asked: asked.clone(), node }, answer)).into()
        }
        _ => vec![],
    }
}

fn on_text(dice: &mut Dice, asked: Asked, faults: usize) -> Vec<Box<dyn Case>> {
    let mut case = NodeText { asked, node: dice.from(0, 5) as u32 };
    for _ in 0..faults {
        if !spoiled(dice, &mut case.asked) {
            case.node = dice.pick(&ODD_NUMBERS);
        }
    }
    boxed([case])
}

fn every_node(dice: &mut Dice) -> Vec<Box<dyn Case>> {
    let (c, k) = (channels(dice), dice.from(0, 32) as u32);
    let nodes = dice.from(1, 64);
    let asked = Asked { text: formula(dice, c, k, nodes), c, k };
    let odd = dice.pick(&ODD_NUMBERS);
    let numbers = (0..=nodes as u32 + 1).chain([odd, u32::MAX]);
    boxed(numbers.map(|node| NodeText { asked: asked.clone(), node }))
}

/// 2^32 + 1 bytes are no text of 1 byte.
fn vast_length() -> Option<String> {
    let length = (1 << 32) + 1;
    // SAFETY: it is as long as is said.
    wrong_answers([unsafe { tuv_node_text(vast(b"T", length), length, 1, 1, 1) }], [3])
}
