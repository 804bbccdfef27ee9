//! The site file: entries of 10 bytes, then a trailer of 8.

use crate::numbers::{Number, NOT_A_SITE_FILE, NOT_WRITTEN};
use crate::record::stamp;
use crate::stamp::{digit_of, in_range, t_of};
use crate::table::{value_in_range, Site, ITEMS, SITES};

/// "item 1, stamp 5, value 4"
pub const ENTRY: usize = 10;

/// "Then a trailer of 8 bytes."
pub const TRAILER: usize = 8;

/// "8 to 248 bytes."
pub const LONGEST_FILE: usize = ENTRY * ITEMS + TRAILER;

/// What a site file holds: a site and its copy. Stamp 0 marks an item never measured.
#[derive(Clone, Copy, Debug, Default, PartialEq, Eq)]
pub struct Readings {
    pub site: u8,
    pub stamps: [u64; ITEMS],
    pub values: [i32; ITEMS],
}

impl Readings {
    pub fn of(digit: u8, site: &Site) -> Readings {
        Readings { site: digit, stamps: site.stamps, values: site.values }
    }
}

/// "FNV-1a (32 bits, basis 2166136261, prime 16777619, products cut to 32 bits)"
pub fn fnv(bytes: &[u8]) -> u32 {
    bytes.iter().fold(2_166_136_261, |hash, &byte| (hash ^ u32::from(byte)).wrapping_mul(16_777_619))
}

/// The readings of a site file, or 18.
pub fn read(bytes: &[u8]) -> Result<Readings, Number> {
    read_checked(bytes).ok_or(NOT_A_SITE_FILE)
}

fn read_checked(bytes: &[u8]) -> Option<Readings> {
    let (entries, trailer) = bytes.split_last_chunk::<TRAILER>()?;
    let [site, count, ..] = *trailer;
    if count > ITEMS as u8 || entries.len() != ENTRY * usize::from(count) || !site_allowed(site) {
        return None;
    }
    let distance = u16::from_le_bytes([trailer[2], trailer[3]]);
    let check = u32::from_le_bytes([trailer[4], trailer[5], trailer[6], trailer[7]]);
    if usize::from(distance) != entries.len() || check != fnv(&bytes[..bytes.len() - 4]) {
        return None;
    }
    let mut readings = Readings { site, ..Readings::default() };
    let mut lowest = 0;
    for entry in entries.chunks_exact(ENTRY) {
        let item = usize::from(entry[0]);
        let stamp = stamp(&entry[1..6]);
        let value = i32::from_le_bytes([entry[6], entry[7], entry[8], entry[9]]);
        if item < lowest || item >= ITEMS || !reading_allowed(stamp, value) {
            return None;
        }
        readings.stamps[item] = stamp;
        readings.values[item] = value;
        lowest = item + 1;
    }
    Some(readings)
}

/// "site not 1 to 7"
fn site_allowed(site: u8) -> bool {
    (1..=SITES as u8).contains(&site)
}

/// "a stamp with t 0 or above its limit or digit not 1 to 7, or a value out of range"
fn reading_allowed(stamp: u64, value: i32) -> bool {
    in_range(stamp, SITES as u8) && value_in_range(value)
}

/// Fills the front of a buffer and gives the length of the file, or 19.
/// "Bytes behind the file are not touched."
pub fn write(buffer: &mut [u8], readings: &Readings) -> Result<usize, Number> {
    let count = readings.stamps.iter().filter(|&&stamp| stamp != 0).count();
    let entries = ENTRY * count;
    let length = entries + TRAILER;
    if buffer.len() < length || !may_be_written(readings) {
        return Err(NOT_WRITTEN);
    }
    let measured = (0..ITEMS).filter(|&item| readings.stamps[item] != 0);
    for (item, entry) in measured.zip(buffer.chunks_exact_mut(ENTRY)) {
        entry[0] = item as u8;
        entry[1..6].copy_from_slice(&readings.stamps[item].to_le_bytes()[..5]);
        entry[6..10].copy_from_slice(&readings.values[item].to_le_bytes());
    }
    let trailer = &mut buffer[entries..length];
    trailer[0] = readings.site;
    trailer[1] = count as u8;
    trailer[2..4].copy_from_slice(&(entries as u16).to_le_bytes());
    let check = fnv(&buffer[..length - 4]);
    buffer[length - 4..length].copy_from_slice(&check.to_le_bytes());
    Ok(length)
}

/// "its site or readings would be refused so, or an item of stamp 0 is not blank"
fn may_be_written(readings: &Readings) -> bool {
    let allowed = |item: usize| match readings.stamps[item] {
        0 => readings.values[item] == 0,
        stamp => reading_allowed(stamp, readings.values[item]),
    };
    site_allowed(readings.site) && (0..ITEMS).all(allowed)
}

/// The whole file of some readings.
pub fn to_bytes(readings: &Readings) -> Result<Vec<u8>, Number> {
    let mut buffer = [0; LONGEST_FILE];
    let length = write(&mut buffer, readings)?;
    Ok(buffer[..length].to_vec())
}

/// One line an item: item, movement, position, stamp, t, site digit, value; or `refused 18`.
pub fn show(bytes: &[u8]) -> String {
    let readings = match read(bytes) {
        Ok(readings) => readings,
        Err(number) => return format!("refused {number}\n"),
    };
    let measured = (0..ITEMS).filter(|&item| readings.stamps[item] != 0);
    measured.map(|item| show_item(item, readings.stamps[item], readings.values[item])).collect()
}

/// "Item number = 6 × movement + position."
fn show_item(item: usize, stamp: u64, value: i32) -> String {
    let (movement, position) = (item / 6, item % 6);
    let (t, digit) = (t_of(stamp), digit_of(stamp));
    format!("{item} {movement} {position} {stamp} {t} {digit} {value}\n")
}

#[cfg(test)]
mod tests {
    use super::*;

    fn some_readings() -> Readings {
        let mut readings = Readings { site: 3, ..Readings::default() };
        readings.stamps[0] = 8001;
        readings.values[0] = -350;
        readings.stamps[23] = 34_359_738_367;
        readings.values[23] = 8_640_000;
        readings
    }

    /// Sets the check to what the bytes before it ask for.
    fn seal(file: &mut [u8]) {
        let end = file.len() - 4;
        let check = fnv(&file[..end]);
        file[end..].copy_from_slice(&check.to_le_bytes());
    }

    #[test]
    fn published_vectors() {
        let vectors: [(&str, u32); 10] = [
            ("", 0x811c_9dc5),
            ("a", 0xe40c_292c),
            ("b", 0xe70c_2de5),
            ("c", 0xe60c_2c52),
            ("d", 0xe10c_2473),
            ("e", 0xe00c_22e0),
            ("f", 0xe30c_2799),
            ("fo", 0x6222_e842),
            ("foo", 0xa9f3_7ed7),
            ("foobar", 0xbf9c_f968),
        ];
        for (text, hash) in vectors {
            assert_eq!(fnv(text.as_bytes()), hash, "{text:?}");
        }
    }

    #[test]
    fn case_11() {
        let empty = Readings { site: 1, ..Readings::default() };
        let file = to_bytes(&empty).unwrap();
        assert_eq!(file.len(), 8);
        assert_eq!(file[..4], [1, 0, 0, 0]);
        assert_eq!(read(&file), Ok(empty));
        assert_eq!(read(&file[..7]), Err(18));
        assert_eq!(read(&[]), Err(18));
    }

    #[test]
    fn written_and_read_back() {
        let file = to_bytes(&some_readings()).unwrap();
        assert_eq!(file.len(), 28);
        assert_eq!(file[..10], [0, 65, 31, 0, 0, 0, 162, 254, 255, 255]);
        assert_eq!(file[20..24], [3, 2, 20, 0]);
        assert_eq!(read(&file), Ok(some_readings()));
        let lines = "0 0 0 8001 1000 1 -350\n23 3 5 34359738367 4294967295 7 8640000\n";
        assert_eq!(show(&file), lines);
    }

    #[test]
    fn every_reason_for_18() {
        let good = to_bytes(&some_readings()).unwrap();
        let damaged = |place: usize, bytes: &[u8]| {
            let mut file = good.clone();
            file[place..place + bytes.len()].copy_from_slice(bytes);
            seal(&mut file);
            file
        };
        assert!(read(&damaged(0, &[0])).is_ok());
        let reasons: [(&str, Vec<u8>); 13] = [
            ("site 0", damaged(20, &[0])),
            ("site 8", damaged(20, &[8])),
            ("count too small", damaged(21, &[1])),
            ("count too large", damaged(21, &[3])),
            ("distance", damaged(22, &[21])),
            ("distance, high byte", damaged(23, &[1])),
            ("item twice", damaged(0, &[23])),
            ("item above 23", damaged(10, &[24])),
            ("t 0", damaged(1, &[1, 0, 0, 0, 0])),
            ("t above its limit", damaged(1, &[1, 0, 0, 0, 8])),
            ("digit 0", damaged(1, &[64])),
            ("value above", damaged(6, &8_640_001_i32.to_le_bytes())),
            ("value below", damaged(6, &(-8_640_001_i32).to_le_bytes())),
        ];
        for (reason, file) in reasons {
            assert_eq!(read(&file), Err(18), "{reason}");
        }
        let mut wrong_check = good.clone();
        wrong_check[27] ^= 1;
        assert_eq!(read(&wrong_check), Err(18));
        let mut longer = vec![0];
        longer.extend(&good);
        assert_eq!(read(&longer), Err(18));
        let many: Vec<u8> = (0..25)
            .flat_map(|item| [item, 9, 0, 0, 0, 0, 0, 0, 0, 0])
            .chain([1, 25, 250, 0, 0, 0, 0, 0])
            .collect();
        let mut many = many;
        seal(&mut many);
        assert_eq!(read(&many), Err(18), "25 entries");
    }

    #[test]
    fn every_reason_for_19_and_no_byte_behind() {
        let good = some_readings();
        let mut buffer = [7; 40];
        assert_eq!(write(&mut buffer[..27], &good), Err(19));
        assert_eq!(buffer, [7; 40]);
        assert_eq!(write(&mut buffer, &good), Ok(28));
        assert_eq!(buffer[28..], [7; 12]);
        let wrong: [fn(&mut Readings); 8] = [
            |r| r.site = 0,
            |r| r.site = 8,
            |r| r.values[0] = 8_640_001,
            |r| r.values[0] = -8_640_001,
            |r| r.values[1] = 1,
            |r| r.stamps[0] = 1,
            |r| r.stamps[0] = 8000,
            |r| r.stamps[0] = 34_359_738_369,
        ];
        for change in wrong {
            let mut readings = good;
            change(&mut readings);
            let mut buffer = [7; 300];
            assert_eq!(write(&mut buffer, &readings), Err(19));
            assert_eq!(buffer, [7; 300]);
        }
    }
}
