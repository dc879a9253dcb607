//! Reads JSON objects member by member, without a tree of values: each member stays a slice of the body until it is asked for. So a body
//! takes little more memory than its bytes. An error names the place of the bad value, such as `calls[3].fresh[0]`.
use serde::de::{Deserializer, Error, MapAccess, SeqAccess, Visitor};
use serde::Deserialize;
use serde_json::value::RawValue;
use std::borrow::Cow;
use std::fmt;

/// How many members an object may have; no object of the API has more than nine.
const MOST_MEMBERS: usize = 16;
/// How many characters of a client's text an error shows.
const SHOWN: usize = 40;
/// How many characters of a path the log shows.
pub const PATH: usize = 200;

/// What is wrong with a request, and where.
#[derive(Debug, PartialEq, Eq)]
pub struct Invalid {
    pub field: String,
    pub why: String,
}

pub type Checked<T> = Result<T, Invalid>;

pub fn invalid(field: &str, why: &str) -> Invalid {
    Invalid { field: field.to_string(), why: why.to_string() }
}

/// The first characters of what a client sent.
pub fn shown(text: &str) -> String {
    text.chars().take(SHOWN).collect()
}

/// A JSON object whose members are taken out one by one. Those that are left at the end are unknown.
pub struct Members<'a> {
    /// The object's place, with a dot, or nothing for the body itself.
    place: String,
    members: Vec<(Cow<'a, str>, &'a RawValue)>,
}

impl<'a> Members<'a> {
    /// The members of the body itself.
    pub fn of_body(bytes: &'a [u8]) -> Checked<Members<'a>> {
        let whole = serde_json::from_slice(bytes).map_err(|why| invalid("body", &format!("is no JSON: {why}")))?;
        Members::of("", whole)
    }

    /// The members of an object at this place.
    pub fn of(place: &str, value: &'a RawValue) -> Checked<Members<'a>> {
        let named = if place.is_empty() { "body" } else { place };
        if !value.get().starts_with('{') {
            return Err(invalid(named, "is no JSON object"));
        }
        let found: Found = serde_json::from_str(value.get()).map_err(|why| invalid(named, &why.to_string()))?;
        if found.are_too_many {
            return Err(invalid(named, &format!("has more than {MOST_MEMBERS} fields")));
        }
        let place = if place.is_empty() { String::new() } else { format!("{place}.") };
        Ok(Members { place, members: found.members })
    }

    pub fn field(&self, name: &str) -> String {
        format!("{}{}", self.place, shown(name))
    }

    pub fn wrong(&self, name: &str, why: &str) -> Invalid {
        invalid(&self.field(name), why)
    }

    pub fn has(&self, name: &str) -> bool {
        self.members.iter().any(|(found, _)| found == name)
    }

    /// Whether all members were taken out.
    pub fn are_taken(&self) -> bool {
        self.members.is_empty()
    }

    /// Takes a member out. `null` is no member.
    pub fn take(&mut self, name: &str) -> Option<&'a RawValue> {
        let at = self.members.iter().position(|(found, _)| found == name)?;
        let (_, value) = self.members.swap_remove(at);
        (value.get() != "null").then_some(value)
    }

    pub fn wanted(&mut self, name: &str) -> Checked<&'a RawValue> {
        self.take(name).ok_or_else(|| self.wrong(name, "is missing"))
    }

    pub fn text(&mut self, name: &str) -> Checked<Cow<'a, str>> {
        let value = self.wanted(name)?;
        text(value).ok_or_else(|| self.wrong(name, "is no string"))
    }

    pub fn number(&mut self, name: &str, least: u64, most: u64) -> Checked<u64> {
        let value = self.wanted(name)?;
        let number = read::<u64>(value).filter(|number| (least..=most).contains(number));
        number.ok_or_else(|| self.wrong(name, &format!("is no whole number from {least} to {most}")))
    }

    /// What a member says that may be missing.
    pub fn may<T>(&mut self, name: &str, read: impl FnOnce(&mut Self) -> Checked<T>) -> Checked<Option<T>> {
        self.has(name).then(|| read(self)).transpose()
    }

    /// Reads a body, which has no other members.
    pub fn read<T>(bytes: &'a [u8], read: impl FnOnce(&mut Self) -> Checked<T>) -> Checked<T> {
        let mut members = Members::of_body(bytes)?;
        let told = read(&mut members)?;
        members.finish()?;
        Ok(told)
    }

    /// Refuses the members that are left.
    pub fn finish(self) -> Checked<()> {
        match self.members.iter().map(|(name, _)| name).min() {
            Some(name) => Err(self.wrong(name, "is no field here")),
            None => Ok(()),
        }
    }
}

/// A value of this type, or `None` if it is of another.
pub fn read<'a, T: Deserialize<'a>>(value: &'a RawValue) -> Option<T> {
    serde_json::from_str(value.get()).ok()
}

/// A string, which is copied only if it has escapes.
pub fn text(value: &RawValue) -> Option<Cow<'_, str>> {
    read(value).map(|Text(text)| text)
}

#[derive(Deserialize)]
struct Text<'a>(#[serde(borrow)] Cow<'a, str>);

/// The members of an object. The last of those with the same name counts.
#[derive(Default)]
struct Found<'a> {
    members: Vec<(Cow<'a, str>, &'a RawValue)>,
    are_too_many: bool,
}

impl<'de> Deserialize<'de> for Found<'de> {
    fn deserialize<D: Deserializer<'de>>(from: D) -> Result<Found<'de>, D::Error> {
        from.deserialize_map(OfMap)
    }
}

struct OfMap;

impl<'de> Visitor<'de> for OfMap {
    type Value = Found<'de>;

    fn expecting(&self, f: &mut fmt::Formatter) -> fmt::Result {
        f.write_str("an object")
    }

    fn visit_map<M: MapAccess<'de>>(self, mut map: M) -> Result<Found<'de>, M::Error> {
        let mut found = Found::default();
        while let Some((Text(name), value)) = map.next_entry::<Text, &RawValue>()? {
            match found.members.iter().position(|(other, _)| *other == name) {
                Some(before) => found.members[before].1 = value,
                None if found.members.len() == MOST_MEMBERS => found.are_too_many = true,
                None => found.members.push((name, value)),
            }
        }
        Ok(found)
    }
}

/// The items of a list: the first ones, and how many there are in all.
pub struct Items<'a> {
    pub first: Vec<&'a RawValue>,
    pub count: usize,
}

/// The items of a list, at most `most` of them; `None` if the value is no list.
pub fn items(value: &RawValue, most: usize) -> Option<Items<'_>> {
    let (mut first, mut count) = (Vec::new(), 0);
    each(value, |place, item| {
        first.extend((place < most).then_some(item));
        count += 1;
        Ok(())
    })?
    .ok()?;
    Some(Items { first, count })
}

/// Reads each item of a list by `item`, which is given its place, and stops at the first that is wrong; `None` if the value is no list.
pub fn each<'a, T>(
    value: &'a RawValue,
    item: impl FnMut(usize, &'a RawValue) -> Checked<T>,
) -> Option<Checked<Vec<T>>> {
    let mut wrong = None;
    let mut from = serde_json::Deserializer::from_str(value.get());
    match from.deserialize_seq(Each { item, wrong: &mut wrong }) {
        Ok(read) => Some(Ok(read)),
        Err(_) => wrong.map(Err),
    }
}

struct Each<'w, F> {
    item: F,
    wrong: &'w mut Option<Invalid>,
}

impl<'de, T, F: FnMut(usize, &'de RawValue) -> Checked<T>> Visitor<'de> for Each<'_, F> {
    type Value = Vec<T>;

    fn expecting(&self, f: &mut fmt::Formatter) -> fmt::Result {
        f.write_str("a list")
    }

    fn visit_seq<S: SeqAccess<'de>>(mut self, mut items: S) -> Result<Vec<T>, S::Error> {
        let mut read = Vec::new();
        while let Some(item) = items.next_element::<&RawValue>()? {
            match (self.item)(read.len(), item) {
                Ok(one) => read.push(one),
                Err(why) => {
                    *self.wrong = Some(why);
                    return Err(S::Error::custom("an item is wrong"));
                }
            }
        }
        Ok(read)
    }
}
