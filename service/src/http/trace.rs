//! The trace that a request belongs to, as the header `traceparent` of W3C's Trace Context says.
use hyper::header::HeaderMap;

const HEADER: &str = "traceparent";
/// How many digits the parts have: the version, the trace, the parent and the flags.
const LENGTHS: [usize; 4] = [2, 32, 16, 2];

/// The trace's number. An invalid header is ignored, as the standard says.
pub fn of(headers: &HeaderMap) -> Option<String> {
    let mut given = headers.get_all(HEADER).iter();
    let text = given.next()?.to_str().ok()?;
    // if there are two, neither counts
    given.next().is_none().then_some(())?;
    let parts: Vec<&str> = text.trim().split('-').collect();
    let are_right =
        parts.len() >= LENGTHS.len() && parts.iter().zip(LENGTHS).all(|(part, length)| is_part(part, length));
    let is_whole = parts[0] != "00" || parts.len() == LENGTHS.len();
    let is_zero = |part: &str| part.bytes().all(|byte| byte == b'0');
    (are_right && is_whole && parts[0] != "ff" && !is_zero(parts[1]) && !is_zero(parts[2]))
        .then(|| parts[1].to_string())
}

fn is_part(part: &str, length: usize) -> bool {
    part.len() == length && part.bytes().all(|byte| byte.is_ascii_digit() || (b'a'..=b'f').contains(&byte))
}

#[cfg(test)]
mod tests {
    use super::*;
    use hyper::header::HeaderValue;

    fn told(texts: &[&'static str]) -> Option<String> {
        let mut headers = HeaderMap::new();
        for text in texts {
            headers.append(HEADER, HeaderValue::from_static(text));
        }
        of(&headers)
    }

    #[test]
    fn reads_what_the_standard_says() {
        const TRACE: &str = "0af7651916cd43dd8448eb211c80319c";
        const WHOLE: &str = "00-0af7651916cd43dd8448eb211c80319c-b7ad6b7169203331-01";
        assert_eq!(told(&[WHOLE]).as_deref(), Some(TRACE));
        // a later version may have more
        assert_eq!(told(&["cc-0af7651916cd43dd8448eb211c80319c-b7ad6b7169203331-01-what"]).as_deref(), Some(TRACE));
        for other in [
            "",
            "00",
            "00-0af7651916cd43dd8448eb211c80319c-b7ad6b7169203331",
            "00-0af7651916cd43dd8448eb211c80319c-b7ad6b7169203331-01-what",
            "00-0AF7651916CD43DD8448EB211C80319C-b7ad6b7169203331-01",
            "00-0af7651916cd43dd8448eb211c80319-b7ad6b7169203331-01",
            "ff-0af7651916cd43dd8448eb211c80319c-b7ad6b7169203331-01",
            "00-00000000000000000000000000000000-b7ad6b7169203331-01",
            "00-0af7651916cd43dd8448eb211c80319c-0000000000000000-01",
        ] {
            assert_eq!(told(&[other]), None, "{other}");
        }
        assert_eq!((told(&[]), told(&[WHOLE, WHOLE])), (None, None));
    }
}
