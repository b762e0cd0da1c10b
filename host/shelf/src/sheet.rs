//! The vault sheet, read off the columns of its text.

use crate::Production;

/// The characters of a line, before its newline.
const LINE: usize = 40;
/// What the line that opens a page starts with.
const PAGE: &str = "PAGE";

/// What a sheet says of one bin.
#[derive(Debug, Clone, Copy, PartialEq, Eq)]
pub struct Row {
    /// The production whose bin it is.
    pub production: Production,
    /// The bin's number, from 1 in each production.
    pub number: u16,
    /// Its class, 1 to 4.
    pub class: u8,
    /// The stored sizes of its items, added up.
    pub load: u32,
    /// The units left free: capacity less load.
    pub free: u32,
    /// How many items it holds.
    pub held: u16,
}

impl Row {
    fn read(line: &str, production: Production) -> Option<Self> {
        Some(Self {
            production,
            number: line.get(..4)?.trim_start().parse().ok()?,
            class: line.get(5..6)?.parse().ok()?,
            load: line.get(7..15)?.trim_start().parse().ok()?,
            free: line.get(16..24)?.trim_start().parse().ok()?,
            held: line.get(25..29)?.trim_start().parse().ok()?,
        })
    }
}

/// The vault sheet of a stream, or what stands in its place if the stream is
/// refused. [`sheet`](crate::sheet()) makes it.
#[derive(Debug, Clone, PartialEq, Eq)]
pub struct Sheet {
    text: String,
    rows: Vec<Row>,
}

impl Sheet {
    /// Its text, whose first row is of this production: the text does not tell
    /// whose the rows are, where only one production has any. `None` if the
    /// library writes no such text.
    pub(crate) fn read(text: &[u8], first: Production) -> Option<Self> {
        let text = String::from_utf8(text.to_vec()).ok()?;
        let mut sheet = Self {
            text,
            rows: Vec::new(),
        };
        if !sheet.is_refused() {
            sheet.rows = rows(&sheet.text, first)?;
        }
        Some(sheet)
    }

    /// The whole text, lines of 40 characters: one for each opened bin of the
    /// first production and then of the second, in rising number, and one before
    /// each 50 of a production that opens a page. Pages are numbered on from the
    /// first production to the second. Of a refused stream the one line `X number
    /// offset`, or `L 32768` if it is longer than that.
    pub fn text(&self) -> &str {
        &self.text
    }

    /// The opened bins of the first production and then of the second, in rising
    /// number; none of a refused stream.
    pub fn rows(&self) -> &[Row] {
        &self.rows
    }

    /// Whether the stream was refused, for a fault or for its length.
    pub fn is_refused(&self) -> bool {
        self.text.starts_with(['X', 'L'])
    }
}

/// The rows of a text. Those of a production are numbered on from 1, so behind the
/// first row another number 1 is of the second production.
fn rows(text: &str, first: Production) -> Option<Vec<Row>> {
    let mut rows: Vec<Row> = Vec::new();
    let mut production = first;
    for line in text.lines() {
        if line.len() != LINE {
            return None;
        }
        if !line.starts_with(PAGE) {
            let row = Row::read(line, production)?;
            if row.number == 1 && !rows.is_empty() {
                production = Production::Second;
            }
            rows.push(Row { production, ..row });
        }
    }
    Some(rows)
}

#[cfg(test)]
mod tests {
    use super::*;
    use crate::{sheet, shelve, StreamBuilder, MAX_CAPACITY, MAX_SHEET_STREAM};

    fn row(number: u16, class: u8, load: u32, free: u32, held: u16) -> Row {
        Row {
            production: Production::First,
            number,
            class,
            load,
            free,
            held,
        }
    }

    /// A stream that fills so many bins.
    fn full_bins(bins: u16) -> Vec<u8> {
        let mut stream = StreamBuilder::open(MAX_CAPACITY, 512, 9);
        for _ in 0..bins {
            stream.shelve(MAX_CAPACITY);
        }
        stream.into_bytes()
    }

    #[test]
    fn the_sample_of_the_specification() {
        let mut stream = StreamBuilder::open(60, 4, 6);
        for size in [35, 22, 22, 22, 22, 22, 22, 20] {
            stream.shelve(size);
        }
        stream.count().shelve(22);
        let sheet = sheet(stream.bytes());
        let lines = [
            "PAGE   1                                \n",
            "   1 1       57        3    2           \n",
            "   2 3       44       16    2           \n",
            "   3 3       44       16    2           \n",
            "   4 3       44       16    2           \n",
        ];
        assert_eq!(sheet.text(), lines.concat());
        let rows = [
            row(1, 1, 57, 3, 2),
            row(2, 3, 44, 16, 2),
            row(3, 3, 44, 16, 2),
            row(4, 3, 44, 16, 2),
        ];
        assert_eq!(sheet.rows(), rows);
        assert!(!sheet.is_refused());
    }

    #[test]
    fn a_page_has_50_rows() {
        for (bins, pages) in [(1, 1), (50, 1), (51, 2), (512, 11)] {
            let sheet = sheet(&full_bins(bins));
            let all = (1..=bins).map(|number| row(number, 1, MAX_CAPACITY, 0, 1));
            assert_eq!(sheet.rows(), all.collect::<Vec<Row>>());
            let lines: Vec<&str> = sheet.text().lines().collect();
            assert_eq!(lines.len(), usize::from(bins) + pages);
            for (page, lines) in (1..).zip(lines.chunks(51)) {
                assert_eq!(lines[0], format!("PAGE {page:>3}{:32}", ""));
            }
        }
    }

    #[test]
    fn loads_add_up_to_the_accepted_sizes() {
        let mut stream = StreamBuilder::open(100, 9, 6);
        for size in 1..=120 {
            stream.shelve(size);
        }
        let (mut words, mut free) = stream.rows();
        let totals = shelve(stream.bytes(), &mut words, &mut free).unwrap();
        let accepted = (1..).zip(&words).filter(|(_, &word)| word < 0x8000);
        let sheet = sheet(stream.bytes());
        let loads = sheet.rows().iter().map(|row| row.load);
        assert_eq!(loads.sum::<u32>(), accepted.map(|(size, _)| size).sum());
        let held = sheet.rows().iter().map(|row| row.held);
        assert_eq!(held.sum::<u16>(), totals.items);
        assert_eq!(sheet.rows().len(), usize::from(totals.opened));
    }

    #[test]
    fn an_emptied_bin_keeps_its_row() {
        let mut stream = StreamBuilder::open(60, 4, 6);
        stream.shelve(35).shelve(22).shelve(22);
        stream.withdraw(1).withdraw(3).withdraw(1);
        let rows = [row(1, 1, 0, 60, 0), row(2, 3, 22, 38, 1)];
        assert_eq!(sheet(stream.bytes()).rows(), rows);
        stream.shelve(40).withdraw(2);
        let rows = [row(1, 1, 40, 20, 1), row(2, 3, 0, 60, 0)];
        assert_eq!(sheet(stream.bytes()).rows(), rows);
    }

    #[test]
    fn nothing_opened_has_no_page() {
        let mut stream = StreamBuilder::open(60, 4, 6);
        stream.count().shelve(0).shelve(61);
        let sheet = sheet(stream.bytes());
        assert_eq!((sheet.text(), sheet.rows()), ("", &[][..]));
        assert!(!sheet.is_refused());
    }

    #[test]
    fn a_refused_stream_has_no_sheet() {
        let mut second = full_bins(3);
        second.push(0x01);
        let long = vec![0x01; MAX_SHEET_STREAM];
        let longer = vec![0x01; MAX_SHEET_STREAM + 1];
        for (stream, text) in [
            (&[][..], "X 1 0\n"),
            (&second, "X 4 23\n"),
            (&long, "X 5 0\n"),
            (&longer, "L 32768\n"),
        ] {
            let sheet = sheet(stream);
            assert_eq!((sheet.text(), sheet.rows()), (text, &[][..]));
            assert!(sheet.is_refused());
        }
    }

    #[test]
    fn a_second_row_1_is_of_the_second_production() {
        let line = |number| format!("{number:>4} 1       35       25    1           \n");
        let page = |number| format!("PAGE {number:>3}{:32}\n", "");
        let one = [page(1), line(1), line(2)].concat();
        let both = [one.clone(), page(2), line(1)].concat();
        use Production::{First, Second};
        for (text, first, expected) in [
            (&one, First, &[(First, 1), (First, 2)][..]),
            (&one, Second, &[(Second, 1), (Second, 2)]),
            (&both, First, &[(First, 1), (First, 2), (Second, 1)]),
        ] {
            let sheet = Sheet::read(text.as_bytes(), first).unwrap();
            let rows = sheet.rows().iter().map(|row| (row.production, row.number));
            assert_eq!(rows.collect::<Vec<_>>(), expected);
        }
    }

    #[test]
    fn excluded_texts_are_no_sheet() {
        let line = "   1 1       35       25    1           \n";
        let read = |text: &[u8]| Sheet::read(text, Production::First);
        assert!(read(line.as_bytes()).is_some());
        for (part, other) in [
            ("   1 1", "     1"),
            (" 1 ", "   "),
            ("35", "3x"),
            ("35", "35 "),
            (" 25 ", "25  "),
            ("1           \n", "            \n"),
        ] {
            let text = line.replacen(part, other, 1);
            assert_eq!(read(text.as_bytes()), None, "{text}");
        }
        for text in [&b"\n"[..], &[0xFF]] {
            assert_eq!(read(text), None);
        }
    }
}
