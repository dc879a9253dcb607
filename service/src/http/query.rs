//! The numbers of a query, as `after=4000&limit=100`.
use super::json_members::shown;
use super::reply::{bad_field, Refusable};

/// Reads the wanted parameters, each a number within its limits, or its default. Others are refused.
pub fn numbers<const N: usize>(query: &str, wanted: [Parameter; N]) -> Refusable<[u64; N]> {
    let mut found = wanted.map(|parameter| parameter.default);
    for pair in query.split('&').filter(|pair| !pair.is_empty()) {
        let (name, value) = pair.split_once('=').unwrap_or((pair, ""));
        let Some(place) = wanted.iter().position(|parameter| parameter.name == name) else {
            return Err(bad_field(&shown(name), "is no parameter here").into());
        };
        let most = wanted[place].most;
        let digits = value.bytes().all(|byte| byte.is_ascii_digit());
        found[place] = match value.parse() {
            Ok(number) if digits && number <= most => number,
            _ => return Err(bad_field(name, &format!("is no whole number from 0 to {most}")).into()),
        };
    }
    Ok(found)
}

/// Takes a parameter of text out of a query: what it is, if it is there, and the rest of the query.
pub fn text<'a>(query: &'a str, name: &str) -> (Option<&'a str>, String) {
    let value = |pair: &'a str| pair.split_once('=').filter(|(found, _)| *found == name).map(|(_, value)| value);
    let rest: Vec<&str> = query.split('&').filter(|pair| value(pair).is_none()).collect();
    (query.split('&').find_map(value), rest.join("&"))
}

/// A parameter of a query.
#[derive(Clone, Copy)]
pub struct Parameter {
    pub name: &'static str,
    pub most: u64,
    pub default: u64,
}

#[cfg(test)]
mod tests {
    use super::*;

    #[test]
    fn a_text_is_taken_out() {
        assert_eq!(text("after=3&log=ab&wait=1", "log"), (Some("ab"), "after=3&wait=1".to_string()));
        assert_eq!(text("log=", "log"), (Some(""), String::new()));
        assert_eq!(text("after=3&logs=1", "log"), (None, "after=3&logs=1".to_string()));
        assert_eq!(text("", "log"), (None, String::new()));
    }
}
