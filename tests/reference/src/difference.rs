//! Where a result is not what it should be.

use std::error::Error;
use std::fmt;

#[derive(Clone, Debug, PartialEq, Eq)]
pub struct Difference {
    place: String,
    expected: Vec<u8>,
    found: Vec<u8>,
}

impl fmt::Display for Difference {
    fn fmt(&self, f: &mut fmt::Formatter) -> fmt::Result {
        let Difference { place, expected, found } = self;
        let equal = expected.iter().zip(found).take_while(|(expected, found)| expected == found).count();
        // What stands shortly before the first byte that differs tells where it is.
        let from = equal.saturating_sub(60);
        let [expected, found] = [expected, found].map(|bytes| shortened(&bytes[from..]));
        write!(f, "{place}, from byte {from} on\n  expected {expected}\n  found    {found}")
    }
}

impl Error for Difference {}

/// Nothing if the two are equal.
pub fn equal(place: &str, expected: &[u8], found: &[u8]) -> Result<(), Difference> {
    if expected == found {
        return Ok(());
    }
    Err(Difference { place: place.into(), expected: expected.to_vec(), found: found.to_vec() })
}

/// The bytes in quotes, with the middle of a long text left out.
pub fn shortened(bytes: &[u8]) -> String {
    const END: usize = 200;
    match bytes.len() {
        length if length <= 2 * END => format!("{length} bytes \"{}\"", bytes.escape_ascii()),
        length => {
            let (front, back) = (&bytes[..END], &bytes[length - END..]);
            format!("{length} bytes \"{}\" .. \"{}\"", front.escape_ascii(), back.escape_ascii())
        }
    }
}
