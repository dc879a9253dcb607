//! The statement that commits a group to PostgreSQL. It begins with the lease and the fence, which each part joins as `l`: so nothing is written where
//! another leads. Each part costs time even without rows, so it has those that the group has rows of. There is one prepared statement for each such list
//! of parts, and the columns of their rows are its parameters.
use super::many::Cell;
use super::parameter::{Array, Parameter};
use super::parts::{self, Part, Statement, Take};
use super::pq::{Connection, Failed};
use super::rows::Group;
use std::collections::HashSet;
use std::convert::Infallible;
use std::ffi::{CStr, CString};
use std::fmt::Write;

/// The fence: $1 seconds of the lease and $2 the leader's name. It locks the row of the leader, which another process changes as it takes the
/// lead. A leader that was stopped holds no lock. It writes no version of the row: those of thousands of commits would stay beside a long
/// read, as a dump is, and each commit would visit them all.
const LEASE: &str = "select 1 from leader where name = $2 and $1::float8 > 0 for no key update";
/// The same, which renews the lease too.
const RENEWAL: &str = "update leader set beat = beat + 1, until = clock_timestamp() + $1::float8 * interval '1 s'
    where name = $2 returning 1";
/// How many parameters each has.
const OF_LEASE: usize = 2;

/// What a statement has of a group: its parts, the columns of all of them, and how many rows each part has that is counted.
#[derive(Default)]
pub struct Columns {
    pub parts: Vec<&'static Part>,
    pub given: Vec<Parameter>,
    pub counts: Vec<usize>,
}

impl Columns {
    pub fn of(group: &Group) -> Columns {
        let mut columns = Columns::default();
        let Ok(()) = parts::write(group, &mut columns);
        columns
    }
}

impl Take for Columns {
    type Error = Infallible;

    fn take<'a, T, const N: usize>(
        &mut self,
        part: &'static Part,
        rows: impl ExactSizeIterator<Item = T> + Clone,
        cells: impl Fn(T) -> [Cell<'a>; N],
    ) -> Result<(), Infallible> {
        debug_assert_eq!(part.cells.len(), N);
        if rows.len() > 0 {
            self.parts.push(part);
            self.counts.extend(part.is_counted().then_some(rows.len()));
            let mut columns = [(); N].map(|()| Array::default());
            for row in rows {
                columns.iter_mut().zip(cells(row)).for_each(|(column, cell)| column.push(&cell));
            }
            self.given.extend(columns.map(Array::parameter));
        }
        Ok(())
    }
}

/// The statements that the connection knows, by their names.
#[derive(Default)]
pub struct Statements(HashSet<CString>);

impl Statements {
    /// The name of the statement of these parts, which rise, with the lease's renewal or without. Prepares it if it is new.
    pub fn name(&mut self, connection: &mut Connection, parts: &[&Part], renews: bool) -> Result<CString, Failed> {
        let name = name(parts, renews);
        if !self.0.contains(&name) {
            connection.prepare(&name, &statement(parts, renews))?;
            self.0.insert(name.clone());
        }
        Ok(name)
    }
}

fn name(parts: &[&Part], renews: bool) -> CString {
    let mut name = String::from(if renews { "renew" } else { "commit" });
    for part in parts {
        // a write to a text does not fail
        let _ = write!(name, "_{}", part.place);
    }
    CString::new(name).unwrap_or_else(|_| CStr::to_owned(c"commit"))
}

/// It answers whether it locked the leader, and how many rows it wrote of each of its parts that is counted.
fn statement(parts: &[&Part], renews: bool) -> String {
    let lease = if renews { RENEWAL } else { LEASE };
    let (mut with, mut counts, mut before) =
        (format!("l as ({lease})"), "(select count(*) from l)".to_string(), OF_LEASE);
    for part in parts {
        let rows = part.rows(before);
        before += part.cells.len();
        for (place, statement) in part.statements.iter().enumerate() {
            let _ = write!(with, ", p{}_{place} as ({})", part.place, statement.over(&rows, part.cells.len()));
        }
        if part.is_counted() {
            let _ = write!(counts, ", (select count(*) from p{}_0)", part.place);
        }
    }
    format!("with {with} select {counts}")
}

/// The name of the column at a place.
fn letter(place: usize) -> char {
    char::from(b'a' + place as u8)
}

impl Part {
    fn is_counted(&self) -> bool {
        matches!(self.statements, [Statement::Counted(_)])
    }

    /// Its rows, whose columns are parameters behind `before` others. There are none where another leads.
    fn rows(&self, before: usize) -> String {
        let kinds = self.cells.chars().map(|kind| if kind == 'n' { "bigint" } else { "text" });
        let columns = kinds.zip(before + 1..).map(|(kind, number)| format!("${number}::{kind}[]"));
        let names = (0..self.cells.len()).map(|place| letter(place).to_string());
        format!("l, unnest({}) u({})", columns.collect::<Vec<_>>().join(", "), names.collect::<Vec<_>>().join(", "))
    }
}

impl Statement {
    /// It over these rows, which have so many cells.
    fn over(&self, rows: &str, cells: usize) -> String {
        let (table, then) = match self {
            Statement::Each(text) => return text.replace("{u}", rows),
            Statement::Counted(table) => (table, "returning 1"),
            Statement::Insert(table, then) => (table, *then),
        };
        let selected = (0..cells).map(|place| format!("u.{}", letter(place))).collect::<Vec<_>>().join(", ");
        format!("insert into {table} select {selected} from {rows} {then}")
    }
}

#[cfg(test)]
mod tests {
    use super::super::parts::CALLS;
    use super::*;
    use crate::model::Cut;

    #[test]
    fn a_statement_has_the_parts_that_it_needs() {
        let renewal = statement(&[], true);
        assert_eq!(renewal, format!("with l as ({RENEWAL}) select (select count(*) from l)"));
        let cuts = Columns::of(&Group { cuts: vec![Cut { job: 1, after: 2, upto: 3 }], ..Group::default() });
        let told = statement(&[&CALLS, cuts.parts[0]], false);
        assert!(
            told.starts_with(&format!("with l as ({LEASE}), p1_0 as (insert into call select u.a, u.b, ")),
            "{told}"
        );
        let rows = "l, unnest($14::bigint[], $15::bigint[], $16::bigint[]) u(a, b, c)";
        assert!(
            told.contains(&format!("p6_0 as (delete from call using {rows} where job = u.a and seq > u.b")),
            "{told}"
        );
        assert!(told.contains("$3::bigint[]") && told.contains("u.k from l, unnest(") && !told.contains('{'), "{told}");
        assert!(told.ends_with(" select (select count(*) from l), (select count(*) from p1_0)"), "{told}");
        assert_eq!((name(&[&CALLS, cuts.parts[0]], true).to_str(), cuts.given.len()), (Ok("renew_1_6"), 3));
    }
}
