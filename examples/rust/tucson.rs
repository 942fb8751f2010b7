//! Tucson decadal files from Rust: reads a text on standard input, prints a line name,first year,count for each series, then the
//! same series as they are written, in thousandths.

#[allow(dead_code)] // the example needs some of the calls
#[path = "../../rust/src/lib.rs"]
mod walzhik;

use std::io::{Read, Write};

fn printed(text: &[u8]) -> Result<Vec<u8>, walzhik::Refusal> {
    let series = walzhik::tucson_read(text)?;
    for one in &series {
        println!("{},{},{}", String::from_utf8_lossy(&one.name), one.first_year, one.widths.len());
    }
    walzhik::tucson_write(&series, text.len())
}

fn main() -> std::io::Result<()> {
    let mut text = Vec::new();
    std::io::stdin().read_to_end(&mut text)?;
    match printed(&text) {
        Ok(written) => std::io::stdout().write_all(&written),
        Err(refusal) => {
            eprintln!("{refusal}: {:?}", refusal.reason());
            std::process::exit(1);
        }
    }
}
