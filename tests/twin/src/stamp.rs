//! Stamps. "A stamp is also the request's name."

/// "t runs from 1 to 4,294,967,295."
pub const LARGEST_T: u64 = 4_294_967_295;

/// "Stamp = 8 × t + site."
pub fn stamp(t: u64, digit: u8) -> u64 {
    8 * t + u64::from(digit)
}

pub fn t_of(stamp: u64) -> u64 {
    stamp / 8
}

pub fn digit_of(stamp: u64) -> u8 {
    (stamp % 8) as u8
}

/// "has t in range and a site digit from 1 to the site count"
pub fn in_range(stamp: u64, count: u8) -> bool {
    (1..=LARGEST_T).contains(&t_of(stamp)) && (1..=count).contains(&digit_of(stamp))
}

/// "A base stamp is well formed if it is 0, or has t in range and a site digit from 1 to the site count."
pub fn well_formed(stamp: u64, count: u8) -> bool {
    stamp == 0 || in_range(stamp, count)
}

/// "the lower site digit is higher; for equal digits the smaller stamp is higher"
pub fn higher(a: u64, b: u64) -> bool {
    (digit_of(a), a) < (digit_of(b), b)
}

#[cfg(test)]
mod tests {
    use super::*;

    #[test]
    fn well_formed_at_the_edges() {
        assert!(well_formed(0, 1));
        assert!(!well_formed(1, 7), "t 0 with a digit");
        assert!(!well_formed(8, 7), "digit 0");
        assert!(well_formed(9, 1));
        assert!(!well_formed(10, 1), "digit above the site count");
        assert!(well_formed(34_359_738_361, 1));
        assert!(!well_formed(34_359_738_369, 1), "t above its limit");
        assert!(!well_formed(u64::MAX, 7));
    }

    #[test]
    fn priority_is_by_digit_then_by_stamp() {
        assert!(higher(8009, 8002));
        assert!(higher(8001, 8009));
        assert!(!higher(8009, 8001));
        assert!(!higher(8001, 8001));
    }
}
