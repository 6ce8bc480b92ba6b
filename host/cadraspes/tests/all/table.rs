//! Reads a drawing back: its table by the heads of the columns, and its lines
//! by following them as an eye would.
use std::collections::BTreeMap;

/// A row of a drawing.
pub struct Row {
    graph: Vec<char>,
    cells: BTreeMap<String, String>,
    /// What stands behind the table.
    pub remarks: String,
}

pub struct Table(pub Vec<Row>);

/// Where a line leads: the hash, and whether it is a line to a parent.
pub type Led = Option<(String, bool)>;

const COLUMNS: [&str; 8] = ["index", "hash", "previous", "live", "linked", "canonical", "clinked", "leaf"];
const MARKS: &str = "#*ox?";

impl Row {
    pub fn cell(&self, column: &str) -> &str {
        &self.cells[column]
    }

    /// The letter in a lane, a space where the row has ended.
    fn at(&self, place: usize) -> char {
        self.graph.get(place).copied().unwrap_or(' ')
    }

    fn own(&self) -> usize {
        let marks: Vec<usize> = (0..self.graph.len()).filter(|at| MARKS.contains(self.graph[*at])).collect();
        assert_eq!(marks.len(), 1, "one block a row: {:?}", self.graph);
        marks[0]
    }
}

impl Table {
    pub fn of(drawn: &str) -> Table {
        let mut lines = drawn.lines().skip_while(|line| !line.split_whitespace().eq(COLUMNS));
        let Some(head) = lines.next() else { return Table(Vec::new()) };
        let starts = COLUMNS.map(|column| head.find(&format!(" {column}")).expect("a head") + 1);
        Table(lines.map(|line| row(line, &starts)).collect())
    }

    pub fn row(&self, hash: &str) -> &Row {
        self.0.iter().find(|row| row.cell("hash") == hash).unwrap_or_else(|| panic!("{hash} is not drawn"))
    }

    /// The hashes of the rows that a remark stands behind.
    pub fn with(&self, remark: &str) -> Vec<&str> {
        let there = |row: &&Row| format!("{}  ", row.remarks).contains(&format!("  {remark}  "));
        self.0.iter().filter(there).map(|row| row.cell("hash")).collect()
    }

    /// Follows the line down from a row. It leads to a parent if neither end
    /// is orphaned or not worked out, and is dotted otherwise.
    pub fn led(&self, from: usize) -> Led {
        let lane = self.0[from].own();
        let mut dots = Vec::new();
        for row in self.0.iter().skip(from + 1) {
            let to = match row.at(lane) {
                line @ ('│' | '┊') => {
                    dots.push(line == '┊');
                    continue;
                }
                '┼' => continue,
                '┘' | '┴' => row.left_of(lane),
                mark if MARKS.contains(mark) => row.cell("hash").to_string(),
                _ => break,
            };
            let parent = [&self.0[from], row].iter().all(|row| !"x?".contains(row.at(row.own())));
            assert!(dots.iter().all(|dotted| *dotted != parent), "a line from {to} changes on its way");
            return Some((to, parent));
        }
        assert!(dots.is_empty(), "a line ends nowhere");
        None
    }
}

impl Row {
    /// The block that a line arrives at from the right.
    fn left_of(&self, lane: usize) -> String {
        let own = self.own();
        assert!(own < lane, "arrives from the right: {:?}", self.graph);
        assert!((own + 1..lane).all(|at| "─┼┴".contains(self.at(at))), "a line is broken: {:?}", self.graph);
        self.cell("hash").to_string()
    }
}

fn row(line: &str, starts: &[usize; 8]) -> Row {
    let letters: Vec<char> = line.chars().collect();
    let part = |from: usize, to: usize| -> String {
        letters.iter().skip(from).take(to.saturating_sub(from)).collect::<String>().trim().to_string()
    };
    let leaf = starts[7] + "leaf".len();
    let ends = starts.iter().skip(1).copied().chain([leaf]);
    let cells = COLUMNS.iter().zip(starts.iter().zip(ends));
    Row {
        graph: letters.iter().take(starts[0]).copied().collect(),
        cells: cells.map(|(column, (from, to))| (column.to_string(), part(*from, to))).collect(),
        remarks: letters.iter().skip(leaf).collect(),
    }
}
