//! The tree as SVG: a box for each block, indexes from left to right, lines to
//! the parents. What is canonical linked is drawn thick, what is not linked
//! dashed, with the reason in its box. Sizes are whole numbers, so that one
//! tree gives one text.
use super::layout::{placed, Placed};
use super::scene::{Edge, Scene, Shown};
use crate::{Hash, Work};
use std::collections::BTreeMap;

/// The width of a letter and the height of a line.
const LETTER: usize = 8;
const LINE: usize = 18;
/// Between a box and its words, between boxes, and around it all.
const PAD: usize = 9;
const ACROSS: usize = 60;
const DOWN: usize = 20;
const MARGIN: usize = 20;

const STYLE: &str = "\
text { font-family: monospace; font-size: 13px; fill: #222 }
.name, .tip { font-weight: bold }
.tip { fill: #a03000 }
.why { fill: #a00020 }
rect { fill: #ffffff; stroke: #555; stroke-width: 1 }
.canonical rect { fill: #e6f0e6; stroke: #1d5c2e; stroke-width: 3 }
.unlinked rect { fill: #f7f2f2; stroke-dasharray: 6 4 }
.unknown rect { stroke-dasharray: 2 3 }
path { fill: none; stroke: #555; stroke-width: 1.5 }
path.canonical { stroke: #1d5c2e; stroke-width: 4 }
path.named { stroke-dasharray: 3 4 }
";

/// The sizes that all boxes share.
struct Sheet {
    width: usize,
    height: usize,
    levels: usize,
    lanes: usize,
    top: usize,
}

/// A line of words in a box, with its class.
type Words = Vec<(&'static str, String)>;

/// A scene as a whole SVG document.
pub fn svg(scene: &Scene) -> String {
    let (placed, heading) = (placed(scene), scene.heading());
    let words: Vec<Words> = placed.iter().map(|placed| words(scene, placed.shown)).collect();
    let sheet = Sheet::of(&placed, &words, heading.len());
    let letters = heading.iter().map(|line| line.chars().count()).max().unwrap_or(0);
    let across = (2 * MARGIN + letters * LETTER).max(sheet.x(0) + sheet.width + MARGIN);
    let down = sheet.y(sheet.lanes) + MARGIN;
    let mut out = format!(
        "<svg xmlns=\"http://www.w3.org/2000/svg\" width=\"{across}\" height=\"{down}\" \
         viewBox=\"0 0 {across} {down}\">\n<title>A tree of blocks</title>\n<style>\n{STYLE}</style>\n\
         <rect class=\"sheet\" width=\"{across}\" height=\"{down}\" style=\"stroke: none\"/>\n"
    );
    for (line, at) in heading.iter().zip(1..) {
        out += &text_at("", MARGIN, MARGIN + at * LINE, line);
    }
    out += &indexes(&placed, &sheet);
    out += &edges(&placed, &sheet);
    out.extend(placed.iter().zip(&words).map(|(placed, words)| boxed(placed, words, &sheet)));
    out + "</svg>\n"
}

impl Sheet {
    fn of(placed: &[Placed], words: &[Words], heading: usize) -> Sheet {
        let letters = words.iter().flatten().map(|(_, line)| line.chars().count()).max().unwrap_or(0);
        let lines = words.iter().map(Vec::len).max().unwrap_or(0);
        Sheet {
            width: letters * LETTER + 2 * PAD,
            height: lines * LINE + 2 * PAD,
            levels: placed.iter().map(|placed| placed.level + 1).max().unwrap_or(0),
            lanes: placed.iter().map(|placed| placed.lane + 1).max().unwrap_or(0),
            top: MARGIN + (heading + 2) * LINE + DOWN,
        }
    }

    /// The left side of a level: the lowest index is on the left.
    fn x(&self, level: usize) -> usize {
        MARGIN + self.levels.saturating_sub(level + 1) * (self.width + ACROSS)
    }

    /// The upper side of a lane.
    fn y(&self, lane: usize) -> usize {
        self.top + lane * (self.height + DOWN)
    }
}

/// A hash that fits a box: the first and the last of a long one.
fn short(hash: Hash) -> String {
    let name = hash.to_string();
    match (name.get(..8), name.get(name.len().saturating_sub(6)..)) {
        (Some(first), Some(last)) if name.len() > 16 => format!("{first}..{last}"),
        _ => name,
    }
}

/// What a box says.
fn words(scene: &Scene, shown: &Shown) -> Words {
    let (block, mut all) = (&shown.block, vec![("name", short(shown.block.hash))]);
    let value = |name: &str, work: Option<Work>| work.map(|work| ("", format!("{name} {work}")));
    let mut state = vec![if block.marks.orphaned { "orphaned" } else { "live" }];
    state.extend(block.marks.canonical.then_some("canonical"));
    state.extend(shown.standing.iter().any(|standing| standing.leaf).then_some("leaf"));
    all.push(("", state.join(", ")));
    match (&shown.standing, shown.linked()) {
        (None, _) => all.push(("", "not worked out yet".to_string())),
        (Some(_), None) => all.push(("why", "not linked:".to_string())),
        (_, work) => all.extend(value("linked", work)),
    }
    all.extend(shown.remarks(short).into_iter().map(|line| ("why", line)));
    all.extend(value("clinked", shown.canonical_linked()));
    all.extend(scene.is_best(shown).then(|| ("tip", "BEST".to_string())));
    all.extend(scene.is_canonical_best(shown).then(|| ("tip", "CANONICAL BEST".to_string())));
    all
}

/// The index above each level.
fn indexes(placed: &[Placed], sheet: &Sheet) -> String {
    let levels: BTreeMap<usize, u64> = placed.iter().map(|placed| (placed.level, placed.shown.block.index)).collect();
    let above = |(level, index)| text_at("", sheet.x(level), sheet.top - PAD, &format!("index {index}"));
    levels.into_iter().map(above).collect()
}

/// A line from each block to the one that it leads to.
fn edges(placed: &[Placed], sheet: &Sheet) -> String {
    let at: BTreeMap<Hash, &Placed> = placed.iter().map(|placed| (placed.shown.block.hash, placed)).collect();
    let edge = |child: &Placed| Some(curve(child, at.get(&child.shown.edge.to()?)?, sheet));
    placed.iter().filter_map(edge).collect()
}

fn curve(child: &Placed, parent: &Placed, sheet: &Sheet) -> String {
    let both = [child, parent].iter().all(|placed| placed.shown.canonical_linked().is_some());
    let class = match child.shown.edge {
        Edge::Named(_) => "named",
        _ if both => "canonical",
        _ => "parent",
    };
    let middle = |placed: &Placed| sheet.y(placed.lane) + sheet.height / 2;
    let (from, to) = (sheet.x(child.level), sheet.x(parent.level) + sheet.width);
    let (high, low, half) = (middle(child), middle(parent), (from + to) / 2);
    format!("<path class=\"{class}\" d=\"M{from} {high} C{half} {high} {half} {low} {to} {low}\"/>\n")
}

fn boxed(placed: &Placed, words: &Words, sheet: &Sheet) -> String {
    let (x, y, hash) = (sheet.x(placed.level), sheet.y(placed.lane), placed.shown.block.hash);
    let class = match &placed.shown.standing {
        None => "unknown",
        Some(standing) => match (standing.linked, standing.canonical_linked) {
            (Some(_), Some(_)) => "canonical",
            (Some(_), None) => "linked",
            (None, Some(_)) => "unlinked canonical",
            (None, None) => "unlinked",
        },
    };
    let (width, height) = (sheet.width, sheet.height);
    let mut out = format!("<g class=\"block {class}\">\n<title>{}</title>\n", escaped(&hash.to_string()));
    out += &format!("<rect x=\"{x}\" y=\"{y}\" width=\"{width}\" height=\"{height}\" rx=\"5\"/>\n");
    for ((class, line), at) in words.iter().zip(1..) {
        out += &text_at(class, x + PAD, y + at * LINE + PAD / 2, line);
    }
    out + "</g>\n"
}

fn text_at(class: &str, x: usize, y: usize, line: &str) -> String {
    let class = if class.is_empty() { String::new() } else { format!(" class=\"{class}\"") };
    format!("<text{class} x=\"{x}\" y=\"{y}\">{}</text>\n", escaped(line))
}

/// Text as it may stand in a document.
fn escaped(text: &str) -> String {
    text.replace('&', "&amp;").replace('<', "&lt;").replace('>', "&gt;")
}
