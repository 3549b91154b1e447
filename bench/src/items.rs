//! Everything that is measured, rows first, each under the name by which it is asked for.

use crate::agree::agree;
use crate::calls::{repeat, Kind, Side, ROOM};
use crate::growth;
use crate::inputs::Place;
use crate::rows::{self, Row};

pub struct Item {
    pub name: String,
    pub kind: Kind,
    pub input: Place,
    /// What the Rust is given, where that is something else.
    rust_input: Option<Place>,
}

impl Item {
    fn new(name: String, kind: Kind, bytes: &[u8]) -> Item {
        Item { name, kind, input: place(kind, bytes), rust_input: None }
    }

    fn of_row(row: &Row) -> Item {
        let rust_input = row.rust_input.as_ref().map(|bytes| place(row.kind, bytes));
        Item { rust_input, ..Item::new(row.name.to_string(), row.kind, &row.input) }
    }

    fn given(&self, side: Side) -> &Place {
        match side {
            Side::Rust => self.rust_input.as_ref().unwrap_or(&self.input),
            Side::Ours | Side::Crate => &self.input,
        }
    }

    pub fn check(&self) -> Result<(), String> {
        agree(self.kind, self.given(Side::Rust).bytes(), self.given(Side::Ours).bytes())
            .map_err(|why| format!("{} cannot be compared: {why}", self.name))
    }

    pub fn run(&self, side: Side, buffer: &mut Place, count: u64) {
        repeat(self.kind.call(side), self.given(side), buffer, count);
    }
}

fn place(kind: Kind, bytes: &[u8]) -> Place {
    match kind {
        Kind::Frame => Place::of_frame(bytes),
        _ => Place::of_text(bytes),
    }
}

/// The name of one size of a series.
pub fn sized(name: &str, size: usize) -> String {
    format!("{name}@{size}")
}

pub fn of_rows() -> Vec<Item> {
    rows::all().iter().map(Item::of_row).collect()
}

pub fn all() -> Vec<Item> {
    let mut items = of_rows();
    for series in growth::ALL {
        for &size in series.sizes {
            let name = sized(series.name, size);
            items.push(Item::new(name, series.kind, &(series.make)(size)));
        }
    }
    items
}

/// One item alone, since under an emulator it costs minutes to make them all.
pub fn named(name: &str) -> Option<Item> {
    if let Some(item) = of_rows().into_iter().find(|item| item.name == name) {
        return Some(item);
    }
    let (wanted, size) = name.split_once('@')?;
    let series = growth::ALL.iter().find(|series| series.name == wanted)?;
    let size = *series.sizes.iter().find(|known| known.to_string() == size)?;
    Some(Item::new(name.to_string(), series.kind, &(series.make)(size)))
}

/// Writes go to one buffer, which begins where a frame does.
pub fn buffer() -> Place {
    Place::of_frame(&[0; ROOM])
}

/// The first item on which the sides part ways ends it all.
pub fn check(items: &[Item]) -> Result<(), String> {
    items.iter().try_for_each(Item::check)
}
