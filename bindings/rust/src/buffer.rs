//! Room that calls of the library write to.
use crate::error::Error;
use crate::raw;

/// The text of an error has so many bytes beside what it quotes of an envelope, and fewer.
pub(crate) const SENTENCE: usize = 1024;

// What a call writes to a buffer of so many bytes at first, which grows as the call asks; none where it says that there is none. The text of
// an error has to find room at first.
pub(crate) fn filled(room: usize, mut call: impl FnMut(&mut [u8], &mut usize) -> u32) -> Result<Option<Vec<u8>>, Error> {
    let mut bytes = vec![0; room.max(SENTENCE)];
    loop {
        let mut used = 0;
        match call(&mut bytes, &mut used) {
            raw::OK => {
                bytes.truncate(used);
                return Ok(Some(bytes));
            }
            raw::TOO_SMALL => bytes.resize(used, 0),
            raw::NONE => return Ok(None),
            status => return Err(Error::of(status, &bytes[..used])),
        }
    }
}

// The library's texts are UTF-8.
pub(crate) fn text_of(bytes: Vec<u8>) -> String {
    String::from_utf8(bytes).unwrap_or_else(|error| String::from_utf8_lossy(error.as_bytes()).into_owned())
}

#[cfg(test)]
mod tests {
    use super::filled;
    use crate::error::Error;
    use crate::raw;

    // What a call that has this status says of an argument.
    fn told(text: &str, status: u32) -> Error {
        let call = |bytes: &mut [u8], used: &mut usize| {
            bytes[..text.len()].copy_from_slice(text.as_bytes());
            *used = text.len();
            status
        };
        filled(0, call).expect_err("an error")
    }

    /// What the library says of a bad argument is what is told, and its texts are printed on one line.
    #[test]
    fn texts_of_the_library() {
        let error = told("BadRequirement: said by the library \u{1b}", raw::BAD_ARGUMENT);
        let reason = error.reason().expect("a reason");
        assert_eq!((reason.name.as_str(), reason.sentence.as_str()), ("BadRequirement", "said by the library \u{1b}"));
        assert_eq!(error.to_string(), r"BadRequirement: said by the library \u{1b}");
        assert_eq!(told("NotJson", raw::BAD_ARGUMENT).to_string(), "NotJson");
        assert_eq!(told("", raw::BAD_ARGUMENT), Error::BadArgument(None));
        assert_eq!(told("", raw::OUT_OF_MEMORY), Error::OutOfMemory);
    }
}
