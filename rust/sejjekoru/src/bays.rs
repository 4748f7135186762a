//! Bays and carriers: numbers of two kinds, which the compiler keeps apart. To C a bay is a `uint16_t` and a carrier a `uint32_t`, so lists of them go over as they are.

use core::{fmt, slice};

/// A bay's number.
///
/// ```
/// use sejjekoru::Bay;
///
/// let bay = Bay::from(7);
/// assert_eq!((bay, u16::from(bay)), (Bay(7), 7));
/// assert_eq!(bay.to_string(), "b7");
/// ```
///
/// A bay does not pass for a carrier:
///
/// ```compile_fail,E0308
/// use sejjekoru::{Bay, Carrier};
///
/// let carrier: Carrier = Bay(7);
/// ```
#[repr(transparent)]
#[derive(Clone, Copy, Debug, Default, PartialEq, Eq, PartialOrd, Ord, Hash)]
pub struct Bay(pub u16);

/// A carrier's number.
///
/// ```
/// use sejjekoru::Carrier;
///
/// let carrier = Carrier::from(2);
/// assert_eq!((carrier, u32::from(carrier)), (Carrier(2), 2));
/// assert_eq!(carrier.to_string(), "c2");
/// ```
#[repr(transparent)]
#[derive(Clone, Copy, Debug, Default, PartialEq, Eq, PartialOrd, Ord, Hash)]
pub struct Carrier(pub u32);

impl Bay {
    /// A list of plain numbers as bays. Nothing is copied.
    ///
    /// ```
    /// use sejjekoru::Bay;
    ///
    /// const START: &[Bay] = Bay::list(&[1, 0]);
    /// assert_eq!(START, [Bay(1), Bay(0)]);
    /// ```
    pub const fn list(numbers: &[u16]) -> &[Bay] {
        // SAFETY: `Bay` is transparent over `u16`: the same size and alignment, and every `u16` is a bay. Length and lifetime are the list's own, and
        // both are read only while it is borrowed.
        unsafe { slice::from_raw_parts(numbers.as_ptr().cast(), numbers.len()) }
    }

    /// As [`Bay::list`], for a list that is written to.
    ///
    /// ```
    /// use sejjekoru::Bay;
    ///
    /// let mut numbers = [1, 0];
    /// Bay::list_mut(&mut numbers)[0] = Bay(3);
    /// assert_eq!(numbers, [3, 0]);
    /// ```
    pub fn list_mut(numbers: &mut [u16]) -> &mut [Bay] {
        // SAFETY: as in `list`; every bay that is written is a `u16`, and the list is borrowed by the outcome alone.
        unsafe { slice::from_raw_parts_mut(numbers.as_mut_ptr().cast(), numbers.len()) }
    }

    /// A list of bays as plain numbers. Nothing is copied.
    ///
    /// ```
    /// use sejjekoru::Bay;
    ///
    /// assert_eq!(Bay::numbers(&[Bay(1), Bay(0)]), [1, 0]);
    /// ```
    pub const fn numbers(bays: &[Bay]) -> &[u16] {
        // SAFETY: as in `list`, the other way round.
        unsafe { slice::from_raw_parts(bays.as_ptr().cast(), bays.len()) }
    }
}

impl Carrier {
    /// Its place in placements and in the account lines, which are in the order of the carriers.
    ///
    /// ```
    /// use sejjekoru::{Bay, Carrier, Yard};
    ///
    /// let yard = Yard::new(4, &[0, 1, 1, 2, 1, 3], &[1, 0], &[0, 1]);
    /// assert_eq!(yard.start[Carrier(1).place()], Bay(0));
    /// ```
    #[must_use]
    pub const fn place(self) -> usize {
        self.0 as usize
    }
}

impl From<u16> for Bay {
    fn from(number: u16) -> Self {
        Bay(number)
    }
}

impl From<Bay> for u16 {
    fn from(bay: Bay) -> Self {
        bay.0
    }
}

impl From<u32> for Carrier {
    fn from(number: u32) -> Self {
        Carrier(number)
    }
}

impl From<Carrier> for u32 {
    fn from(carrier: Carrier) -> Self {
        carrier.0
    }
}

/// As it stands in a printed plan: `b7`.
impl fmt::Display for Bay {
    fn fmt(&self, f: &mut fmt::Formatter<'_>) -> fmt::Result {
        write!(f, "b{}", self.0)
    }
}

/// As it stands in a printed plan: `c2`.
impl fmt::Display for Carrier {
    fn fmt(&self, f: &mut fmt::Formatter<'_>) -> fmt::Result {
        write!(f, "c{}", self.0)
    }
}
