//! What a user of Rust's `object` and `gimli` would write: sizes by section, symbol or source line, for `tools/dev/bench`.
//!
//!     peer sections|symbols|inlines FILE
//!
//! It prints the twenty largest. Unlike bloaty it adds up the sizes of overlapping symbols, and reads no other format.
use gimli::{Dwarf, EndianSlice, RunTimeEndian, SectionId, Unit};
use object::{Object, ObjectSection, ObjectSymbol};
use std::collections::HashMap;
use std::error::Error;

type Slice<'a> = EndianSlice<'a, RunTimeEndian>;
type Sizes = HashMap<String, u64>;

fn sections(file: &object::File) -> Sizes {
    let mut sizes = Sizes::new();
    for section in file.sections() {
        *sizes.entry(section.name().unwrap_or("").to_string()).or_default() += section.size();
    }
    sizes
}

fn symbols(file: &object::File) -> Sizes {
    let mut sizes = Sizes::new();
    for symbol in file.symbols() {
        *sizes.entry(symbol.name().unwrap_or("").to_string()).or_default() += symbol.size();
    }
    sizes
}

/// The sizes of the lines of one unit, by file number and line.
fn line_sizes(unit: &Unit<Slice>) -> gimli::Result<HashMap<(u64, u64), u64>> {
    let mut sizes = HashMap::new();
    let Some(program) = unit.line_program.clone() else { return Ok(sizes) };
    let mut rows = program.rows();
    let mut last: Option<(u64, u64, u64)> = None;
    while let Some((_, row)) = rows.next_row()? {
        if let Some((address, file, line)) = last.filter(|it| row.address() > it.0) {
            *sizes.entry((file, line)).or_default() += row.address() - address;
        }
        let line = row.line().map_or(0, |it| it.get());
        last = (!row.end_sequence()).then(|| (row.address(), row.file_index(), line));
    }
    Ok(sizes)
}

fn path_of<'a>(dwarf: &Dwarf<Slice<'a>>, unit: &Unit<Slice<'a>>, file: u64) -> gimli::Result<String> {
    let Some(program) = &unit.line_program else { return Ok(String::new()) };
    let header = program.header();
    let Some(entry) = header.file(file) else { return Ok(String::new()) };
    let name = dwarf.attr_string(unit, entry.path_name())?.to_string_lossy().into_owned();
    Ok(match entry.directory(header) {
        Some(directory) => format!("{}/{name}", dwarf.attr_string(unit, directory)?.to_string_lossy()),
        None => name,
    })
}

fn inlines(file: &object::File) -> gimli::Result<Sizes> {
    let endian = if file.is_little_endian() { RunTimeEndian::Little } else { RunTimeEndian::Big };
    let dwarf = Dwarf::load(|id: SectionId| {
        let data = file.section_by_name(id.name()).and_then(|it| it.data().ok()).unwrap_or(&[]);
        Ok::<_, gimli::Error>(EndianSlice::new(data, endian))
    })?;
    let mut sizes = Sizes::new();
    let mut units = dwarf.units();
    while let Some(header) = units.next()? {
        let unit = dwarf.unit(header)?;
        for ((file, line), size) in line_sizes(&unit)? {
            *sizes.entry(format!("{}:{line}", path_of(&dwarf, &unit, file)?)).or_default() += size;
        }
    }
    Ok(sizes)
}

fn main() -> Result<(), Box<dyn Error>> {
    let arguments: Vec<String> = std::env::args().collect();
    let [_, what, path] = arguments.as_slice() else { return Err("usage: peer sections|symbols|inlines FILE".into()) };
    let data = std::fs::read(path)?;
    let file = object::File::parse(&*data)?;
    let sizes = match what.as_str() {
        "sections" => sections(&file),
        "symbols" => symbols(&file),
        _ => inlines(&file)?,
    };
    let mut sorted: Vec<_> = sizes.into_iter().collect();
    sorted.sort_by(|a, b| b.1.cmp(&a.1).then(a.0.cmp(&b.0)));
    for (name, size) in sorted.iter().take(20) {
        println!("{size:>12} {name}");
    }
    Ok(())
}
