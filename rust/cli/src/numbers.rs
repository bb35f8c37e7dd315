//! The numbers answered, as docs/NUMBERS.md has them: that page is built into the program, and its rows are read when they are asked for.

const PAGE: &str = include_str!("../../../docs/NUMBERS.md");

/// A row of the page's first table.
pub struct Row {
    pub name: &'static str,
    pub says: &'static str,
    pub advice: &'static str,
    pub srv6: Pcerrs,
    pub mpls: Pcerrs,
}

/// What to send for a route of one form.
#[derive(Clone, Copy, PartialEq)]
pub struct Pcerrs {
    pub ero: Pcerr,
    pub rro: Pcerr,
}

/// A cell of the page: an Error-Type and Error-value, perhaps with a word behind it; or that there is none.
#[derive(Clone, Copy, PartialEq)]
pub struct Pcerr(&'static str);

impl Pcerr {
    /// `10/3`, where there is one.
    pub fn figures(self) -> Option<&'static str> {
        self.0.split(' ').next().filter(|figures| figures.contains('/'))
    }

    /// What the cell says where it has no figures.
    pub fn word(self) -> &'static str {
        self.0
    }

    /// `10/3 (Unsupported number of SR-ERO subobjects)`, where there is one.
    pub fn with_name(self) -> Option<String> {
        self.figures().map(named)
    }
}

/// `10/3 (Unsupported number of SR-ERO subobjects)`, or the figures alone where the page has no name for them.
pub fn named(figures: &str) -> String {
    match rows().find(|cells| cells.first() == Some(&figures)).and_then(|cells| cells.get(1).copied()) {
        Some(name) => format!("{figures} ({name})"),
        None => figures.to_string(),
    }
}

/// The cells of each row of the page's tables.
fn rows() -> impl Iterator<Item = Vec<&'static str>> {
    PAGE.lines().filter_map(|line| Some(line.strip_prefix('|')?.strip_suffix('|')?.split('|').map(str::trim).collect()))
}

pub fn row(number: u64) -> Option<Row> {
    let number = number.to_string();
    let cells = rows().find(|cells| cells.first() == Some(&number.as_str()))?;
    let pcerrs = |ero, rro| Pcerrs { ero: Pcerr(ero), rro: Pcerr(rro) };
    match cells[..] {
        // of both forms
        [_, name, says, advice, ero, rro] => Some(Row { name, says, advice, srv6: pcerrs(ero, rro), mpls: pcerrs(ero, rro) }),
        [_, name, says, advice, ero, rro, mpls_ero, mpls_rro] => Some(Row { name, says, advice, srv6: pcerrs(ero, rro), mpls: pcerrs(mpls_ero, mpls_rro) }),
        _ => None,
    }
}
