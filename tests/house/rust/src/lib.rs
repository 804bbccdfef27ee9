//! Vundrelt for Rust: a night from bytes to bytes, and site files. Safe functions over the proved library;
//! `include/vundrelt.h` says what each call of it does.
//!
//! A refusal is document 01's number: 18, not a site file; 19, output too short or not to be written.

/// Items of a site: 6 x movement + position.
pub const ITEMS: usize = 24;

/// A site file has 8 to 248 bytes.
pub const SITE_FILE_MOST: usize = 248;

/// The readings of a site. Stamp 0 marks an item never measured, whose value is 0.
#[derive(Clone, Debug, PartialEq, Eq)]
pub struct Readings {
    pub site: u8,
    pub stamps: [u64; ITEMS],
    /// In hundredths of a second a day.
    pub values: [i32; ITEMS],
}

extern "C" {
    fn vundrelt_night_length(input: *const u8, input_length: usize) -> usize;
    fn vundrelt_night(
        input: *const u8,
        input_length: usize,
        output: *mut u8,
        output_length: usize,
        written: *mut usize,
    ) -> u8;
    fn vundrelt_read_site_file(
        input: *const u8,
        input_length: usize,
        site: *mut u8,
        stamps: *mut [u64; ITEMS],
        values: *mut [i32; ITEMS],
    ) -> u8;
    fn vundrelt_write_site_file(
        site: u8,
        stamps: *const [u64; ITEMS],
        values: *const [i32; ITEMS],
        output: *mut u8,
        output_length: usize,
        written: *mut usize,
    ) -> u8;
}

/// How many bytes the lines of a night are.
pub fn night_length(input: &[u8]) -> usize {
    // SAFETY: the pointer and the length are one slice, which is only read.
    unsafe { vundrelt_night_length(input.as_ptr(), input.len()) }
}

/// Runs a night from a fresh table: one byte, the site count, then records. Writes its lines at the front of the
/// output and gives their length; 19, and the output as it came, where it is too short for all of them.
pub fn night_into(input: &[u8], output: &mut [u8]) -> Result<usize, u8> {
    let mut written = 0;
    // SAFETY: two slices, of which one is written and, being borrowed `&mut`, overlaps nothing; so does `written`.
    let number = unsafe {
        vundrelt_night(input.as_ptr(), input.len(), output.as_mut_ptr(), output.len(), &mut written)
    };
    done(number, written)
}

/// The lines of a night.
pub fn night(input: &[u8]) -> Result<Vec<u8>, u8> {
    let mut output = vec![0; night_length(input)];
    night_into(input, &mut output)?;
    Ok(output)
}

/// Reads a site file; 18 where the bytes are none.
pub fn read_site_file(input: &[u8]) -> Result<Readings, u8> {
    let mut r = Readings { site: 0, stamps: [0; ITEMS], values: [0; ITEMS] };
    // SAFETY: a slice that is only read, and three places that are written and overlap nothing.
    let number = unsafe {
        vundrelt_read_site_file(input.as_ptr(), input.len(), &mut r.site, &mut r.stamps, &mut r.values)
    };
    done(number, r)
}

/// Writes a site file at the front of the output and gives its length; 19, and the output as it came, where the
/// output is too short or the readings are not allowed.
pub fn write_site_file_into(r: &Readings, output: &mut [u8]) -> Result<usize, u8> {
    let mut written = 0;
    // SAFETY: two arrays that are only read, and a slice and a number that are written and overlap nothing.
    let number = unsafe {
        vundrelt_write_site_file(
            r.site,
            &r.stamps,
            &r.values,
            output.as_mut_ptr(),
            output.len(),
            &mut written,
        )
    };
    done(number, written)
}

/// The site file of some readings; 19 where they are not allowed.
pub fn write_site_file(r: &Readings) -> Result<Vec<u8>, u8> {
    let mut output = vec![0; SITE_FILE_MOST];
    let length = write_site_file_into(r, &mut output)?;
    output.truncate(length);
    Ok(output)
}

/// What a call gave, where its number is 0.
fn done<T>(number: u8, given: T) -> Result<T, u8> {
    if number == 0 {
        Ok(given)
    } else {
        Err(number)
    }
}
