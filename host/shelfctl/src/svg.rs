//! The shelf as an SVG picture.

use std::fmt::{self, Write};

use shelf::Row;

use crate::packing::{Bin, Packing, OF_BOTH};
use crate::words;

const ROW: u32 = 34;
const BAR_HEIGHT: u32 = 22;
/// Space for a row's number and class, left of its bar.
const LABEL: u32 = 74;
/// Space for load and free units, right of it.
const FIGURES: u32 = 170;
const MARGIN: u32 = 32;
const HEADER: u32 = 132;

const STYLE: &str = "\
text { font-family: 'Helvetica Neue', Helvetica, Arial, sans-serif; fill: #22303c; }
.title { font-size: 22px; font-weight: bold; }
.note { font-size: 12px; fill: #66727d; }
.number { font-size: 13px; font-weight: bold; text-anchor: end; }
.class { font-size: 10px; text-anchor: middle; fill: #66727d; }
.size { font-size: 11px; text-anchor: middle; fill: #ffffff; }
.figure { font-size: 12px; }
.empty { fill: #e9edf0; }
.mark { stroke: #9aa6b0; stroke-width: 1; stroke-dasharray: 2 3; }
.marked { font-size: 10px; text-anchor: middle; fill: #87939d; }
";

/// The colour of a cartridge's masters, by the cartridge's class.
fn colour(class: u8) -> &'static str {
    match class {
        1 => "#2c5f8a",
        2 => "#2f8f83",
        3 => "#c9822b",
        _ => "#8a78b5",
    }
}

/// How the rows are laid out: columns of bars of one length.
struct Layout {
    columns: usize,
    rows: usize,
    bar: u32,
}

impl Layout {
    fn of(bins: usize) -> Self {
        let (columns, bar) = match bins {
            0..=32 => (1, 560),
            33..=128 => (2, 400),
            _ => (3, 340),
        };
        let rows = bins.div_ceil(columns).max(1);
        Self { columns, rows, bar }
    }

    fn column_width(&self) -> u32 {
        LABEL + self.bar + FIGURES
    }

    fn width(&self) -> u32 {
        2 * MARGIN + self.columns as u32 * self.column_width()
    }

    fn height(&self) -> u32 {
        HEADER + self.rows as u32 * ROW + MARGIN
    }

    /// Where the bar of a bin starts.
    fn corner(&self, index: usize) -> (u32, u32) {
        let column = (index / self.rows) as u32;
        let row = (index % self.rows) as u32;
        let x = MARGIN + column * self.column_width() + LABEL;
        (x, HEADER + row * ROW)
    }
}

pub struct Picture<'a>(pub &'a Packing);

impl fmt::Display for Picture<'_> {
    fn fmt(&self, f: &mut fmt::Formatter<'_>) -> fmt::Result {
        let packing = self.0;
        let layout = Layout::of(packing.bins.len());
        let (width, height) = (layout.width(), layout.height());
        writeln!(
            f,
            "<svg xmlns=\"http://www.w3.org/2000/svg\" width=\"{width}\" height=\"{height}\" \
             viewBox=\"0 0 {width} {height}\">"
        )?;
        writeln!(f, "<style>\n{STYLE}</style>")?;
        writeln!(
            f,
            "<rect width=\"{width}\" height=\"{height}\" fill=\"#fbfbf9\"/>"
        )?;
        header(f, packing)?;
        for (column, bins) in packing.bins.chunks(layout.rows).enumerate() {
            let first = column * layout.rows;
            marks(f, &layout, first, first + bins.len() - 1)?;
        }
        for (index, bin) in packing.bins.iter().enumerate() {
            row(f, packing, &layout, index, bin)?;
        }
        writeln!(f, "</svg>")
    }
}

fn header(f: &mut fmt::Formatter<'_>, packing: &Packing) -> fmt::Result {
    let (used, units) = packing.units();
    let share = (used * 100).checked_div(units).unwrap_or(0);
    writeln!(
        f,
        "<text class=\"title\" x=\"{MARGIN}\" y=\"46\">{} masters in {} cartridges</text>",
        packing.items(),
        packing.bins.len(),
    )?;
    writeln!(
        f,
        "<text class=\"note\" x=\"{MARGIN}\" y=\"68\">{}; \
         {used} of {units} units in use, {share} %; {}</text>",
        packing.opened_with(),
        packing.besides(),
    )?;
    let mut x = MARGIN;
    for class in 1..=4 {
        let colour = colour(class);
        writeln!(
            f,
            "<rect x=\"{x}\" y=\"82\" width=\"12\" height=\"12\" rx=\"3\" fill=\"{colour}\"/>\
             <text class=\"note\" x=\"{}\" y=\"92\">class {class}</text>",
            x + 18,
        )?;
        x += 76;
    }
    writeln!(
        f,
        "<rect class=\"empty\" x=\"{x}\" y=\"82\" width=\"12\" height=\"12\" rx=\"3\"/>\
         <text class=\"note\" x=\"{}\" y=\"92\">free</text>",
        x + 18,
    )?;
    if packing.of_both() {
        let x = x + 76;
        writeln!(
            f,
            "<text class=\"note\" x=\"{x}\" y=\"92\">{OF_BOTH}</text>"
        )?;
    }
    Ok(())
}

/// Lines where the size classes meet, behind the bars of one column.
fn marks(f: &mut fmt::Formatter<'_>, layout: &Layout, first: usize, last: usize) -> fmt::Result {
    let (left, top) = layout.corner(first);
    let (_, bottom) = layout.corner(last);
    for (part, name) in [(1.0 / 3.0, "1/3"), (0.4, "2/5"), (0.5, "1/2")] {
        let x = f64::from(left) + part * f64::from(layout.bar);
        writeln!(
            f,
            "<line class=\"mark\" x1=\"{x:.1}\" y1=\"{}\" x2=\"{x:.1}\" y2=\"{}\"/>\
             <text class=\"marked\" x=\"{x:.1}\" y=\"{}\">{name}</text>",
            top - 8,
            bottom + BAR_HEIGHT + 8,
            top - 12,
        )?;
    }
    Ok(())
}

fn row(
    f: &mut fmt::Formatter<'_>,
    packing: &Packing,
    layout: &Layout,
    index: usize,
    bin: &Bin,
) -> fmt::Result {
    let (left, top) = layout.corner(index);
    let bar = layout.bar;
    let middle = top + BAR_HEIGHT / 2 + 4;
    let Row {
        class, load, free, ..
    } = bin.row;
    writeln!(
        f,
        "<text class=\"number\" x=\"{}\" y=\"{middle}\">{}</text>\
         <text class=\"class\" x=\"{}\" y=\"{middle}\">class {class}</text>",
        left - 48,
        packing.name(bin),
        left - 24,
    )?;
    writeln!(
        f,
        "<rect class=\"empty\" x=\"{left}\" y=\"{top}\" width=\"{bar}\" \
         height=\"{BAR_HEIGHT}\" rx=\"4\"/>"
    )?;
    let scale = f64::from(bar) / f64::from(packing.opening.capacity);
    let mut start = 0;
    for item in &bin.items {
        let stored = packing.stored(item);
        let x = f64::from(left) + start as f64 * scale;
        let width = stored as f64 * scale;
        // A hair of background parts the items.
        let shown = if width > 3.0 { width - 1.0 } else { width };
        let radius = if width > 10.0 { 4 } else { 0 };
        let size = stored.to_string();
        let mut label = String::new();
        if f64::from(size.len() as u32) * 6.5 + 6.0 < width {
            let centre = x + shown / 2.0;
            write!(
                label,
                "<text class=\"size\" x=\"{centre:.1}\" y=\"{middle}\">{size}</text>"
            )?;
        }
        writeln!(
            f,
            "<g><title>command {}: {}</title><rect x=\"{x:.2}\" y=\"{top}\" \
             width=\"{shown:.2}\" height=\"{BAR_HEIGHT}\" rx=\"{radius}\" fill=\"{}\"/>{label}</g>",
            item.command,
            words::units(packing.opening, item.least, item.size),
            colour(class),
        )?;
        start += stored;
    }
    writeln!(
        f,
        "<text class=\"figure\" x=\"{}\" y=\"{middle}\">{load} <tspan class=\"note\">free {free}\
         </tspan></text>",
        left + bar + 10,
    )
}
