//! Careful changes of a disk that notes every read, write and flush, and that fails when told to.

mod common;
use common::{disk_k, entry, listing, logical, noted_empty, noted_k, table_k, Event, Noted};

use crumbvessel::{careful_push, careful_remove, Error, Medium, Request, MBR};

const BEFORE: &str = "disk 20480 align 2048 logical 1\n1 05 00 4096 16384\n5 83 00 6144 2048\n";
const AFTER: &str = "disk 20480 align 2048 logical 2\n1 05 00 4096 16384\n5 83 00 6144 2048\n6 83 00 10240 2048\n";
const NONE: &str = "disk 20480 align 4096 logical 0\n1 05 00 4096 16384\n";
const EMPTY: &str = "disk 20480 align 4096 logical 1\n1 05 00 4096 16384\n";
const GAP: &str = "disk 20480 align 2048 logical 2\n1 05 00 4096 16384\n5 83 00 6144 2048\n6 83 00 14336 2048\n";
const FILLED: &str = "disk 20480 align 2048 logical 3\n1 05 00 4096 16384\n5 83 00 6144 2048\n6 83 00 10240 2048\n\
                      7 83 00 14336 2048\n";
const BEHIND: &str = "disk 20480 align 4096 logical 2\n1 05 00 4096 16384\n6 83 00 8192 2048\n";

fn request(starting_lba: u32, sectors: u32) -> Request {
    Request { align: 2048, geometry: (0, 0, 0), sys: 0x83, starting_lba, sectors }
}

#[test]
fn a_push_stores_the_new_ebr_then_the_one_before() {
    let mut disk = noted_k();
    let table = careful_push(&mut disk, 512, &request(8192, 4096)).unwrap();
    assert_eq!((table.len(), table[6].starting_lba, table[6].sectors), (6, 10240, 2048));
    let (new, last) = (8192 * 512, 4096 * 512);
    assert_eq!(disk.changes(), [Event::Write(new, 512), Event::Sync, Event::Write(last, 512), Event::Sync]);
    for at in [new, last] {
        let synced = disk.events.windows(3).any(|w| w == [Event::Write(at, 512), Event::Sync, Event::Read(at, 512)]);
        assert!(synced, "the store at {at} is read back once it is on the medium");
    }
    assert_eq!(listing(&mut disk, 512), AFTER);
}

#[test]
fn a_removal_is_one_store() {
    let mut disk = noted_k();
    let table = careful_remove(&mut disk, 512, 5).unwrap();
    assert_eq!(table.logical_partitions, []);
    assert_eq!(disk.changes(), [Event::Write(4096 * 512, 512), Event::Sync]);
    assert_eq!(listing(&mut disk, 512), NONE);
    let again = careful_push(&mut disk, 512, &request(4096, 4096)).unwrap();
    assert_eq!(again.logical_partitions, table_k().logical_partitions);
}

#[test]
fn an_empty_first_ebr_is_sound() {
    let table = MBR::read_from(&mut noted_empty(), 512).unwrap();
    assert_eq!((table.len(), &table[5]), (5, &entry(0, 4096, 0)));
    assert!(table.is_sound().unwrap());
    for wrong in [entry(0, 4097, 0), entry(0, 4096, 1), entry(0x83, 4096, 0), entry(0, 6144, 2048)] {
        let mut other = table.clone();
        other[5] = wrong;
        assert!(!other.is_sound().unwrap());
    }
    let mut two = table.clone();
    two.logical_partitions.push(logical(4097, 4098, 1, Some(2)));
    assert!(two.is_sound().unwrap());
    // The end of an empty first one is the sector behind its EBR.
    two.logical_partitions[1] = logical(4096, 4098, 1, Some(3));
    assert!(!two.is_sound().unwrap());
    // A later one of type 0 is not sound.
    two.logical_partitions[1] = logical(4097, 4097, 0, Some(2));
    two[6].sys = 0;
    assert!(!two.is_sound().unwrap());
}

#[test]
fn a_push_goes_behind_an_empty_first_ebr() {
    let mut disk = noted_empty();
    for (align, start, sectors) in [(2048, 4096, 4096), (1, 4096, 2)] {
        let at_x = Request { align, ..request(start, sectors) };
        assert_eq!(careful_push(&mut disk, 512, &at_x).unwrap_err().number(), 21);
    }
    assert_eq!(disk.changes(), []);
    let next = Request { align: 1, ..request(4097, 2) };
    let table = careful_push(&mut noted_empty(), 512, &next).unwrap();
    assert_eq!(table.logical_partitions[1], logical(4097, 4098, 1, Some(2)));
    let table = careful_push(&mut disk, 512, &request(4097, 4096)).unwrap();
    assert_eq!((&table[5], &table[6]), (&entry(0, 4096, 0), &entry(0x83, 8192, 2048)));
    let (new, first) = (6144 * 512, 4096 * 512);
    assert_eq!(disk.changes(), [Event::Write(new, 512), Event::Sync, Event::Write(first, 512), Event::Sync]);
    assert_eq!(listing(&mut disk, 512), BEHIND);
    for which in 1..=2 {
        for stored in [0, 1, 100, 447, 511] {
            let mut disk = noted_empty();
            disk.fails = Some((which, stored));
            assert!(careful_push(&mut disk, 512, &request(4097, 4096)).is_err());
            assert_eq!(listing(&mut disk, 512), EMPTY);
        }
    }
}

#[test]
fn an_empty_first_ebr_is_removed_as_number_5() {
    let mut disk = noted_empty();
    assert_eq!(careful_remove(&mut disk, 512, 6).unwrap_err().number(), 17);
    assert_eq!(careful_remove(&mut disk, 512, 5).unwrap().logical_partitions, []);
    assert_eq!(disk.changes(), [Event::Write(4096 * 512, 512), Event::Sync]);
    assert_eq!(listing(&mut disk, 512), NONE);
    let behind = || {
        let mut disk = noted_empty();
        careful_push(&mut disk, 512, &request(4097, 4096)).unwrap();
        disk.events.clear();
        disk
    };
    // The zone takes its place, where it stands.
    let mut disk = behind();
    assert_eq!(careful_remove(&mut disk, 512, 5).unwrap().logical_partitions, [logical(4096, 8192, 2048, None)]);
    assert_eq!(disk.changes(), [Event::Write(4096 * 512, 512), Event::Sync]);
    assert_eq!(listing(&mut disk, 512), "disk 20480 align 4096 logical 1\n1 05 00 4096 16384\n5 83 00 8192 2048\n");
    // The zone is removed, and the empty first EBR stays, without a link.
    let mut disk = behind();
    assert!(careful_remove(&mut disk, 512, 6).unwrap().is_sound().unwrap());
    assert_eq!(disk.changes(), [Event::Write(4096 * 512, 512), Event::Sync]);
    assert_eq!(listing(&mut disk, 512), EMPTY);
}

/// Disk K with zones at 6,144, 10,240 and 14,336, of which the middle one is removed: 8,192 to 12,288 is a gap.
fn noted_gap() -> Noted {
    let mut disk = noted_k();
    for start in [8192, 12288] {
        careful_push(&mut disk, 512, &request(start, 4096)).unwrap();
    }
    careful_remove(&mut disk, 512, 6).unwrap();
    assert_eq!(listing(&mut disk, 512), GAP);
    disk.events.clear();
    disk
}

#[test]
fn a_push_goes_into_a_gap() {
    let mut disk = noted_gap();
    let table = careful_push(&mut disk, 512, &request(8192, 4096)).unwrap();
    let zones = [(4096, 6144, None), (8192, 10240, Some(4096)), (12288, 14336, Some(4096))];
    assert_eq!(table.logical_partitions, zones.map(|(ebr, start, link)| logical(ebr, start, 2048, link)));
    let (new, before) = (8192 * 512, 4096 * 512);
    assert_eq!(disk.changes(), [Event::Write(new, 512), Event::Sync, Event::Write(before, 512), Event::Sync]);
    assert_eq!(listing(&mut disk, 512), FILLED);
    for which in 1..=3 {
        for stored in [0, 1, 100, 447, 463, 511] {
            let mut disk = noted_gap();
            let earlier = disk.writes();
            disk.fails = Some((earlier + which, stored));
            assert_eq!(careful_push(&mut disk, 512, &request(8192, 4096)).is_ok(), which == 3);
            assert_eq!(listing(&mut disk, 512), if which == 3 { FILLED } else { GAP });
        }
    }
    // Its beginning, its end, and a part between.
    for (start, sectors) in [(8192, 2), (12286, 2), (10000, 100), (8192, 4096)] {
        let mut disk = noted_gap();
        let part = Request { align: 1, ..request(start, sectors) };
        let table = careful_push(&mut disk, 512, &part).unwrap();
        assert_eq!(table.logical_partitions[1], logical(start, start + 1, sectors - 1, Some(sectors)));
        assert_eq!((table.len(), &table[7]), (7, &entry(0x83, 14336, 2048)));
        assert!(table.is_sound().unwrap());
    }
}

#[test]
fn what_fits_no_gap_is_refused() {
    let mut disk = noted_gap();
    for (start, sectors) in [(4096, 4096), (6144, 4096), (8193, 4096), (8192, 4097), (12288, 4096), (14336, 4096)] {
        assert!(matches!(careful_push(&mut disk, 512, &request(start, sectors)), Err(Error::NoGap)));
    }
    // On an EBR, between it and its partition, in a partition, one sector too early or too long.
    let singles = [(4096, 2), (4097, 2), (6143, 2), (6144, 2), (8191, 2), (8192, 4097), (12287, 2), (12289, 2)];
    for (start, sectors) in singles {
        let single = Request { align: 1, ..request(start, sectors) };
        assert_eq!(careful_push(&mut disk, 512, &single).unwrap_err().number(), 21);
    }
    let before = Request { align: 1, ..request(4095, 2) };
    assert_eq!(careful_push(&mut disk, 512, &before).unwrap_err().number(), 10);
    assert_eq!(disk.changes(), []);
}

#[test]
fn refusals_write_nothing() {
    let mut disk = noted_k();
    let pushes =
        [(16384, 4097, 12), (16385, 4096, 11), (2048, 4096, 10), (6144, 4096, 21), (0, 4096, 7), (8192, 2048, 9)];
    for (start, sectors, number) in pushes {
        assert_eq!(careful_push(&mut disk, 512, &request(start, sectors)).unwrap_err().number(), number);
    }
    let extended = Request { sys: 0x0f, ..request(8192, 4096) };
    assert_eq!(careful_push(&mut disk, 512, &extended).unwrap_err().number(), 23);
    let wide = Request { geometry: (1023, 255, 64), ..request(8192, 4096) };
    assert_eq!(careful_push(&mut disk, 512, &wide).unwrap_err().number(), 23);
    for number in [0, 4, 6, usize::MAX] {
        assert_eq!(careful_remove(&mut disk, 512, number).unwrap_err().number(), 17);
    }
    assert_eq!(careful_remove(&mut disk, 513, 5).unwrap_err().number(), 1);
    assert_eq!(disk.changes(), []);
    // The extended partition ends past the disk.
    disk.bytes.insert(446 + 8, 1);
    assert_eq!(careful_remove(&mut disk, 512, 5).unwrap_err().number(), 20);
    assert_eq!(disk.changes(), []);
}

#[test]
fn only_the_first_512_bytes_of_a_sector_change() {
    let mut disk = disk_k(4096);
    careful_push(&mut disk, 4096, &request(8192, 4096)).unwrap();
    assert_eq!(listing(&mut disk, 4096), AFTER);
    let before = disk_k(4096);
    let pairs = disk.get_ref().chunks(512).zip(before.get_ref().chunks(512));
    let changed: Vec<_> = pairs.enumerate().filter(|(_, (new, old))| new != old).map(|(i, _)| i).collect();
    assert_eq!(changed, [4096 * 8, 8192 * 8]);
}

#[test]
fn a_failing_write_leaves_the_table_before_or_after() {
    for which in 1..=3 {
        for stored in [0, 1, 100, 447, 511, 512] {
            let mut disk = noted_k();
            disk.fails = Some((which, stored));
            let done = careful_push(&mut disk, 512, &request(8192, 4096));
            assert_eq!(done.is_ok(), which == 3);
            assert_eq!(listing(&mut disk, 512), if which == 3 { AFTER } else { BEFORE });
            let mut disk = noted_k();
            disk.fails = Some((which, stored));
            assert_eq!(careful_remove(&mut disk, 512, 5).is_ok(), which > 1);
            assert_eq!(listing(&mut disk, 512), if which > 1 { NONE } else { BEFORE });
        }
    }
}

#[test]
fn a_sector_that_cannot_be_put_back_is_told() {
    let mut disk = noted_k();
    disk.fails = Some((2, 100));
    disk.dies = true;
    match careful_push(&mut disk, 512, &request(8192, 4096)) {
        Err(Error::Io(e)) => assert!(e.to_string().contains("could not be put back"), "{e}"),
        other => panic!("{other:?}"),
    }
}

#[test]
fn the_next_store_waits_for_the_medium() {
    let mut disk = noted_k();
    disk.sync_fails = true;
    assert!(matches!(careful_push(&mut disk, 512, &request(8192, 4096)), Err(Error::Io(_))));
    assert_eq!(disk.changes(), [Event::Write(8192 * 512, 512), Event::Sync]);
    assert_eq!(listing(&mut disk, 512), BEFORE);
}

#[test]
fn a_store_that_does_not_read_back_stops_the_change() {
    let mut disk = noted_k();
    disk.forgets = true;
    match careful_push(&mut disk, 512, &request(8192, 4096)) {
        Err(Error::Io(e)) => assert!(e.to_string().contains("read back"), "{e}"),
        other => panic!("{other:?}"),
    }
    assert_eq!(disk.changes(), [Event::Write(8192 * 512, 512), Event::Sync]);
}

#[test]
fn a_file_is_changed_on_its_device() {
    let path = std::env::temp_dir().join(format!("crumbvessel-{}.img", std::process::id()));
    std::fs::write(&path, disk_k(512).get_ref()).unwrap();
    let mut file = std::fs::OpenOptions::new().read(true).write(true).open(&path).unwrap();
    std::fs::remove_file(&path).unwrap();
    careful_push(&mut file, 512, &request(8192, 4096)).unwrap();
    assert_eq!(listing(&mut file, 512), AFTER);
    careful_remove(&mut file, 512, 6).unwrap();
    assert_eq!(MBR::read_from(&mut file, 512).unwrap(), table_k());
}

/// `flush` says nothing of a file's medium and always succeeds; the device null has none to wait for.
#[test]
fn a_file_waits_for_its_device() {
    let mut null = std::fs::OpenOptions::new().write(true).open("/dev/null").unwrap();
    assert!(std::io::Write::flush(&mut null).is_ok());
    assert!(Medium::sync(&mut null).is_err());
}
