//! A document in Markdown, taken apart: headings, paragraphs, list items and
//! cells of tables, with what they name and where they say that it stands.

use super::root;

/// What belongs together in a document.
#[derive(Default)]
pub struct Block {
    /// Its first line, counted from 1.
    pub line: usize,
    /// The crate that the section's heading names, or nothing.
    pub crate_name: String,
    /// A cell's column, by its heading.
    pub column: String,
    /// A cell's position in its row.
    pub position: usize,
    pub text: String,
}

/// The blocks of a document. Lines of code are left out.
pub fn blocks(text: &str) -> Vec<Block> {
    let mut taken = Taken::default();
    for (position, line) in text.lines().enumerate() {
        taken.take(position + 1, line);
    }
    taken.blocks
}

#[derive(Default)]
struct Taken {
    blocks: Vec<Block>,
    crate_name: String,
    /// The headings of the table's columns.
    columns: Vec<String>,
    /// Whether the next line goes on with the last block.
    open: bool,
}

impl Taken {
    fn take(&mut self, number: usize, line: &str) {
        let words = line.trim();
        if words.is_empty() {
            self.columns.clear();
            self.open = false;
        } else if line.starts_with('#') {
            self.crate_name = between(line, "(crate `", "`)").to_string();
            self.begin(number, words);
            self.open = false;
        } else if line.starts_with('|') {
            self.take_row(number, words);
        } else if is_item(words) {
            self.begin(number, words);
        } else if self.open {
            if let Some(block) = self.blocks.last_mut() {
                block.text += &format!(" {words}");
            }
        } else if !line.starts_with("    ") {
            self.begin(number, words);
        }
    }

    fn begin(&mut self, line: usize, text: &str) {
        self.open = true;
        self.blocks.push(Block {
            line,
            crate_name: self.crate_name.clone(),
            text: text.to_string(),
            ..Block::default()
        });
    }

    /// Each cell is a block. The line below the headings has none.
    fn take_row(&mut self, number: usize, row: &str) {
        if row.chars().all(|c| "|-: ".contains(c)) {
            return;
        }
        let cells: Vec<&str> = row.trim_matches('|').split('|').map(str::trim).collect();
        for (position, cell) in cells.iter().enumerate() {
            self.begin(number, cell);
            if let Some(block) = self.blocks.last_mut() {
                block.position = position;
                block.column = self.columns.get(position).cloned().unwrap_or_default();
            }
        }
        if self.columns.is_empty() {
            self.columns = cells.into_iter().map(String::from).collect();
        }
        self.open = false;
    }
}

fn is_item(words: &str) -> bool {
    let number = words.trim_start_matches(|c: char| c.is_ascii_digit());
    words.starts_with("- ") || number.len() < words.len() && number.starts_with(". ")
}

/// What stands between two words, or nothing.
fn between<'a>(text: &'a str, front: &str, back: &str) -> &'a str {
    let behind = text.split_once(front).map(|it| it.1);
    let found = behind.and_then(|text| text.split_once(back));
    found.map(|it| it.0).unwrap_or_default()
}

// ---- Names and paths.

/// A name in a document, with the path that it belongs to.
pub struct Named {
    pub name: String,
    pub path: Option<String>,
}

enum Piece {
    /// What stands in backticks.
    Name(String),
    /// A path, and whether it is the first word in a bracket.
    Path(String, bool),
    /// A clause ends.
    End,
}

impl Block {
    /// The paths that stand here outside of backticks.
    pub fn paths(&self) -> Vec<String> {
        let paths = self.pieces().into_iter().filter_map(|piece| match piece {
            Piece::Path(path, _) => Some(path),
            _ => None,
        });
        paths.collect()
    }

    /// What stands here in backticks. A path that begins a bracket belongs to the
    /// names ahead of it in its clause. Any other, and one in a bracket with no
    /// such name, belongs to the names that follow, up to the next of these.
    /// Ahead of all is the path of the column, and where wrong answers are listed
    /// the crate's must-fail.
    pub fn named(&self) -> Vec<Named> {
        let mut ahead = self.path_ahead();
        let (mut named, mut open) = (Vec::new(), Vec::new());
        let mut close = |open: &mut Vec<String>, path: &Option<String>| {
            named.extend(open.drain(..).map(|name| Named {
                name,
                path: path.clone(),
            }));
        };
        for piece in self.pieces() {
            match piece {
                Piece::Name(name) => open.push(name),
                Piece::Path(path, true) if !open.is_empty() => close(&mut open, &Some(path)),
                Piece::Path(path, _) => {
                    close(&mut open, &ahead);
                    ahead = Some(path);
                }
                Piece::End => close(&mut open, &ahead),
            }
        }
        close(&mut open, &ahead);
        named
    }

    fn path_ahead(&self) -> Option<String> {
        if self.text.starts_with("- Wrong answers shut out") {
            return Some("must-fail".to_string());
        }
        let column = Block {
            text: self.column.clone(),
            ..Block::default()
        };
        column.paths().into_iter().next()
    }

    fn pieces(&self) -> Vec<Piece> {
        let mut pieces = Vec::new();
        let mut folder = String::new();
        for (position, part) in self.text.split('`').enumerate() {
            if position % 2 == 1 {
                pieces.push(Piece::Name(part.to_string()));
                continue;
            }
            for word in part.split_whitespace() {
                if let Some(path) = path_in(word, &folder) {
                    folder = path.rsplit_once('/').unwrap_or_default().0.to_string();
                    pieces.push(Piece::Path(path, word.starts_with('(')));
                }
                if word.trim_end_matches(')').ends_with([';', ':', '.']) {
                    pieces.push(Piece::End);
                }
            }
        }
        pieces
    }
}

/// Parts of a path that no other word has.
const PARTS: [&str; 11] = [
    "crates",
    "specs",
    "proofs",
    "must-fail",
    "src",
    "rust",
    "link",
    "docs",
    "include",
    "fuzz",
    ".ci",
];

/// The path that a word is, without the marks around it. A file's name alone
/// stands in the folder of the path before it.
fn path_in(word: &str, folder: &str) -> Option<String> {
    let word = word.trim_start_matches('(');
    let word = word.trim_end_matches([')', ',', ';', ':', '.']);
    if !word.contains('/') {
        return word.ends_with(".antt").then(|| format!("{folder}/{word}"));
    }
    let known = word.split('/').any(|part| PARTS.contains(&part));
    (known && !word.ends_with('/')).then(|| word.to_string())
}

/// The path from the repository's root of what a document calls by a shorter
/// one: crates/ may be left out, in a crate's section the crate too, and so may
/// .antt.
pub fn resolved(path: &str, crate_name: &str) -> Option<String> {
    let folders = [
        String::new(),
        "crates/".into(),
        format!("crates/{crate_name}/"),
    ];
    let paths = folders.iter().flat_map(|folder| {
        let whole = format!("{folder}{path}");
        [format!("{whole}.antt"), whole]
    });
    let mut there = paths.filter(|path| root(path).exists());
    there.next()
}
