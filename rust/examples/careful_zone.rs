//! As zone, and the disk survives a drive that is pulled: careful_zone DISK START SECTORS.

use std::error::Error;
use std::fs::OpenOptions;

use crumbvessel::{careful_push, Request};

fn main() -> Result<(), Box<dyn Error>> {
    let words: Vec<String> = std::env::args().collect();
    let [_, path, start, sectors] = &words[..] else { return Err("careful_zone DISK START SECTORS".into()) };
    let mut disk = OpenOptions::new().read(true).write(true).open(path)?;
    let (starting_lba, sectors) = (start.parse()?, sectors.parse()?);
    let request = Request { align: 2048, geometry: (0, 0, 0), sys: 0x83, starting_lba, sectors };
    let mbr = careful_push(&mut disk, 512, &request)?;
    for (i, p) in mbr.iter().filter(|(_, p)| p.is_used()) {
        println!("{i} {:02X} {} {}", p.sys, p.starting_lba, p.sectors);
    }
    Ok(())
}
