//! The tree as text: a row for each block, by falling index, with lines down
//! to the parents on the left and a table on the right.
use super::layout::{placed, Placed};
use super::scene::{Edge, Scene, Shown};
use crate::Hash;
use std::collections::{BTreeMap, BTreeSet};

/// How many lines are drawn side by side. Blocks further right share one more
/// lane, without lines; the table still names what they are built on.
const LANES: usize = 40;

const LEGEND: &str = "#  canonical linked   *  linked   o  live, not linked   x  orphaned   ?  not worked out yet
│  to the parent      ┊  to the block that is named, but is no parent: so every line from or to x or ?";

const CROWDED: &str = "blocks of the last lane have no lines, there are too many side by side: see `previous`";

const COLUMNS: [&str; 8] = ["index", "hash", "previous", "live", "linked", "canonical", "clinked", "leaf"];

/// A scene as text.
pub fn text(scene: &Scene) -> String {
    let mut lines = scene.heading();
    let placed = placed(scene);
    if !placed.is_empty() {
        let lanes = placed.iter().map(|placed| placed.lane + 1).max().unwrap_or(0);
        lines.extend([String::new(), LEGEND.to_string()]);
        lines.extend((lanes > LANES).then(|| CROWDED.to_string()));
        lines.push(String::new());
        lines.extend(rows(scene, &placed, lanes.min(LANES + 1)));
    }
    lines.into_iter().map(|line| format!("{}\n", line.trim_end())).collect()
}

/// The head of the table and a row for each block.
fn rows(scene: &Scene, placed: &[Placed], width: usize) -> Vec<String> {
    let cells: Vec<[String; 8]> = placed.iter().map(|placed| cells(placed.shown)).collect();
    let mut widths = COLUMNS.map(str::len);
    for row in &cells {
        widths.iter_mut().zip(row).for_each(|(width, cell)| *width = cell.len().max(*width));
    }
    let aligned = |row: &[String; 8]| -> String {
        row.iter().zip(widths).map(|(cell, width)| format!("  {cell:<width$}")).collect()
    };
    let head = format!("{}{}", "  ".repeat(width), aligned(&COLUMNS.map(str::to_string)));
    let graph = graph(placed, width).into_iter().zip(placed).zip(&cells);
    let row =
        |((graph, placed), cells): ((String, &Placed), &_)| graph + &aligned(cells) + &remarks(scene, placed.shown);
    [head].into_iter().chain(graph.map(row)).collect()
}

/// What stands in the columns; `-` for no and `?` where it is not worked out.
fn cells(shown: &Shown) -> [String; 8] {
    let block = &shown.block;
    let or_dash = |is: bool, word: &str| if is { word } else { "-" }.to_string();
    let unknown = |known: Option<String>| known.unwrap_or("?".to_string());
    let standing = shown.standing.as_ref();
    let work = |work: Option<crate::Work>| work.map_or("-".to_string(), |work| work.to_string());
    [
        block.index.to_string(),
        block.hash.to_string(),
        block.prev.to_string(),
        or_dash(!block.marks.orphaned, "live"),
        unknown(standing.map(|standing| work(standing.linked))),
        or_dash(block.marks.canonical, "c"),
        unknown(standing.map(|standing| work(standing.canonical_linked))),
        unknown(standing.map(|standing| or_dash(standing.leaf, "leaf"))),
    ]
}

fn remarks(scene: &Scene, shown: &Shown) -> String {
    let tips = [(scene.is_best(shown), "BEST"), (scene.is_canonical_best(shown), "CANONICAL BEST")];
    let tips: String = tips.iter().filter(|(is, _)| *is).map(|(_, word)| format!("  <- {word}")).collect();
    let remarks = shown.remarks(|hash: Hash| hash.to_string());
    match (remarks.is_empty(), shown.linked()) {
        (true, _) => tips,
        (false, Some(_)) => format!("{tips}  {}", remarks.join("; ")),
        (false, None) => format!("{tips}  not linked: {}", remarks.join("; ")),
    }
}

fn mark(shown: &Shown) -> char {
    match &shown.standing {
        _ if shown.block.marks.orphaned => 'x',
        None => '?',
        Some(standing) if standing.canonical_linked.is_some() => '#',
        Some(standing) if standing.linked.is_some() => '*',
        Some(_) => 'o',
    }
}

/// The lines, a row for each block.
fn graph(placed: &[Placed], width: usize) -> Vec<String> {
    // The lanes that a line is in, with what it leads to.
    let mut lines: BTreeMap<usize, Edge> = BTreeMap::new();
    let mut row = |placed: &Placed| {
        let (lane, hash) = (placed.lane.min(LANES), placed.shown.block.hash);
        let arriving = lines.iter().filter(|(_, edge)| edge.to() == Some(hash)).map(|(lane, _)| *lane);
        let arriving: BTreeSet<usize> = arriving.collect();
        lines.retain(|lane, _| !arriving.contains(lane));
        let drawn = graph_row((lane, mark(placed.shown)), &arriving, &lines, width);
        if placed.shown.edge != Edge::None && lane < LANES {
            lines.insert(lane, placed.shown.edge);
        }
        drawn
    };
    placed.iter().map(&mut row).collect()
}

/// One row: a block in its lane, lines that arrive at it from lanes to the
/// right, and lines that pass by.
fn graph_row(
    (own, mark): (usize, char),
    arriving: &BTreeSet<usize>,
    passing: &BTreeMap<usize, Edge>,
    width: usize,
) -> String {
    let end = arriving.last().copied().unwrap_or(own);
    let cell = |lane: usize| {
        let across = own < lane && lane <= end;
        let here = match passing.get(&lane) {
            _ if lane == own => mark,
            _ if arriving.contains(&lane) && lane == end => '┘',
            _ if arriving.contains(&lane) => '┴',
            Some(_) if across => '┼',
            None if across => '─',
            Some(Edge::Named(_)) => '┊',
            Some(_) => '│',
            None => ' ',
        };
        [if across { '─' } else { ' ' }, here]
    };
    (0..width).flat_map(cell).collect()
}
