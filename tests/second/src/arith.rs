//! Whole-number arithmetic, signed throughout.

/// The quotient rounded down, of negative numbers too; the divisor is positive.
pub fn floor(x: i64, t: i64) -> i64 {
    let q = x / t;
    if x % t < 0 {
        q - 1
    } else {
        q
    }
}

/// ceil(x / t) for a positive t.
pub fn ceil(x: i64, t: i64) -> i64 {
    -floor(-x, t)
}

/// How many of 0, t, 2 t, ... are at most x. RULES, times and counts.
pub fn count(x: i64, t: i64) -> i64 {
    (1 + floor(x, t)).max(0)
}

#[cfg(test)]
mod tests {
    use super::*;

    #[test]
    fn floor_goes_towards_minus_infinity() {
        assert_eq!(floor(7, 3), 2);
        assert_eq!(floor(6, 3), 2);
        assert_eq!(floor(0, 3), 0);
        assert_eq!(floor(-1, 3), -1);
        assert_eq!(floor(-3, 3), -1);
        assert_eq!(floor(-4, 3), -2);
        for x in -50..50 {
            for t in 1..12 {
                let q = floor(x, t);
                assert!(q * t <= x && x < (q + 1) * t);
            }
        }
    }

    #[test]
    fn ceil_is_the_least_cover() {
        assert_eq!(ceil(1, 10), 1);
        assert_eq!(ceil(10, 10), 1);
        assert_eq!(ceil(11, 10), 2);
        assert_eq!(ceil(0, 10), 0);
    }

    #[test]
    fn count_is_never_negative() {
        assert_eq!(count(0, 10), 1);
        assert_eq!(count(9, 10), 1);
        assert_eq!(count(10, 10), 2);
        assert_eq!(count(-1, 10), 0);
        assert_eq!(count(-10, 10), 0);
        assert_eq!(count(-11, 10), 0);
    }
}
