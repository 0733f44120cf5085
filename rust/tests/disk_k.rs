//! Document 01's numbers.

mod common;
use common::{disk_k, entry, listing, new_table, table_k};

use crumbvessel::{Extract, MBRHeader, CHS, MBR};

#[test]
fn addresses() {
    for ((c, h, s), bytes) in
        [((0, 32, 33), [0x20, 0x21, 0]), ((514, 3, 5), [3, 0x85, 2]), ((1023, 254, 63), [0xfe, 0xff, 0xff])]
    {
        assert_eq!(CHS::new(c, h, s).to_bytes(), bytes);
        assert_eq!(CHS::from_bytes(bytes), CHS::new(c, h, s));
    }
    let exact = |lba| CHS::from_lba_exact(lba, 1023, 255, 63);
    assert_eq!(exact(2048).unwrap(), CHS::new(0, 32, 33));
    assert_eq!(exact(16_450_559).unwrap(), CHS::new(1023, 254, 63));
    assert!(!CHS::new(1023, 254, 63).is_valid(1023, 255, 63));
    assert_eq!(exact(16_450_560).unwrap_err().number(), 13);
    assert_eq!(CHS::from_lba_exact(60, 10, 2, 3).unwrap(), CHS::new(10, 0, 1));
    assert_eq!(CHS::from_lba_exact(66, 10, 2, 3).unwrap_err().number(), 14);
    assert_eq!(CHS::from_lba_aligned(6, 10, 2, 3).unwrap(), CHS::new(1, 0, 1));
    assert_eq!(CHS::from_lba_aligned(7, 10, 2, 3).unwrap(), CHS::new(2, 0, 1));
    assert_eq!(CHS::from_lba_aligned(0, 10, 2, 3).unwrap_err().number(), 7);
    assert_eq!(CHS::new(0, 32, 33).to_lba(255, 63), 2048);
    assert_eq!(CHS::empty().try_to_lba(255, 63).unwrap_err().number(), 7);
    assert!(CHS::empty().is_empty() && !CHS::new(0, 0, 1).is_empty());
}

/// Alignment of written tables with primary partitions at these sectors.
fn alignment(starts: &[u32]) -> Result<u32, u8> {
    let mut mbr = new_table(100_000);
    for (i, &start) in (1..).zip(starts) {
        mbr[i] = entry(0x83, start, 1);
    }
    let mut disk = common::zeros(100_000, 512);
    mbr.write_into(&mut disk).unwrap();
    MBR::read_from(&mut disk, 512).map(|t| t.align).map_err(|e| e.number())
}

#[test]
fn alignments() {
    assert_eq!(alignment(&[]), Ok(2048));
    assert_eq!(alignment(&[1]), Ok(1));
    assert_eq!(alignment(&[63]), Ok(63));
    assert_eq!(alignment(&[32768]), Ok(16384));
    assert_eq!(alignment(&[0, 63]), Ok(63));
    assert_eq!(alignment(&[0]), Err(7));
}

#[test]
fn free_runs() {
    let mut mbr = new_table(10_000);
    mbr.align = 2048;
    mbr[1] = entry(0x83, 2048, 2048);
    assert_eq!(mbr.find_free_sectors(), [(4096, 5904)]);
    assert_eq!(mbr.find_last_place(1000), Some(8192));
    assert_eq!(mbr.find_first_place(5905), None);
    assert_eq!(table_k().find_free_sectors(), [(2048, 2048), (6144, 4096), (12288, 8192)]);
}

#[test]
fn reading_and_lookup() {
    let k = table_k();
    assert_eq!((k.sector_size, k.disk_size, k.align, k.len()), (512, 20480, 2048, 5));
    assert_eq!(k.header.partition_1, entry(0x05, 4096, 16384));
    assert_eq!(k.logical_partitions, [common::logical(4096, 6144, 2048, None)]);
    assert_eq!(k.find_at_sector(6144), Some(5));
    assert_eq!(k.find_at_sector(8191), Some(5));
    assert_eq!(k.find_at_sector(8192), None);
    assert_eq!(k.find_at_sector(4096), None);
    assert!(k.is_sound().unwrap());
    assert!(k[1].is_extended() && !k[5].is_extended() && !k[5].is_active());
    assert_eq!(MBRHeader::read_from(&mut disk_k(512)).unwrap(), k.header);
}

#[test]
fn pushing() {
    let mut k = table_k();
    for (start, sectors, number) in
        [(16384, 4097, 12), (16385, 4096, 11), (2048, 4096, 10), (0, 4096, 7), (8192, 2048, 9)]
    {
        assert_eq!(k.push(0x83, start, sectors).unwrap_err().number(), number);
    }
    assert_eq!(k, table_k());
    let new = k.push(0x83, 8191, 2049).unwrap();
    assert_eq!(*new, common::logical(8192, 10240, 2048, Some(4096)));
    new.partition.boot = 0x80;
    assert!(k[6].is_active());
    let mut disk = disk_k(512);
    k.write_into(&mut disk).unwrap();
    let text = "disk 20480 align 2048 logical 2\n1 05 00 4096 16384\n5 83 00 6144 2048\n6 83 80 10240 2048\n";
    assert_eq!(listing(&mut disk, 512), text);
    assert_eq!(k.remove(5), common::logical(4096, 6144, 2048, None));
    assert_eq!(k[5].starting_lba, 10240);
}

#[test]
fn extracts() {
    let x = Extract::collect(&mut disk_k(512), 512).unwrap();
    assert_eq!(x.as_bytes().len(), 1056);
    assert_eq!(x.records().map(|(lba, _)| lba).collect::<Vec<_>>(), [0, 4096]);
    assert_eq!(x.listing(), "disk 20480 align 2048 logical 1\n1 05 00 4096 16384\n5 83 00 6144 2048\n");
    assert_eq!(x.read().unwrap(), table_k());
    assert_eq!(x.wanted().unwrap(), None);
    let record = x.look_up(4096).unwrap().unwrap();
    assert_eq!((record[446 + 4], &record[510..]), (0x83, &[0x55, 0xaa][..]));
    assert_eq!(x.look_up(1).unwrap(), None);
    assert_eq!(x.look_up(20480).unwrap_err().number(), 2);
    assert_eq!(x.with(20480, record).unwrap_err().number(), 2);
    assert_eq!(x.with(7, &record[1..]).unwrap_err().number(), 1);
    assert_eq!(Extract::of_bytes(x.as_bytes()[1..].to_vec()).unwrap_err().number(), 1);
    assert_eq!(Extract::of_bytes(x.as_bytes().to_vec()).unwrap(), x);
}
