//! Lists a disk's partitions and adds a logical one: zone DISK START SECTORS.

use std::error::Error;
use std::fs::OpenOptions;

use crumbvessel::MBR;

fn main() -> Result<(), Box<dyn Error>> {
    let words: Vec<String> = std::env::args().collect();
    let [_, path, start, sectors] = &words[..] else { return Err("zone DISK START SECTORS".into()) };
    let mut disk = OpenOptions::new().read(true).write(true).open(path)?;
    let mut mbr = MBR::read_from(&mut disk, 512)?;
    let new = mbr.push(0x83, start.parse()?, sectors.parse()?)?;
    new.partition.boot = 0x80;
    mbr.write_into(&mut disk)?;
    for (i, p) in mbr.iter().filter(|(_, p)| p.is_used()) {
        println!("{i} {:02X} {} {}", p.sys, p.starting_lba, p.sectors);
    }
    Ok(())
}
