//! A table of SQLite or PostgreSQL as the target of a sink (`relkvanu::outputs`). The state of the sink keeps the rows. A record is published in one
//! transaction, which also writes its number and a digest of its rows into the table `relkvanu_entries` of the same database.
use openssl::sha::sha256;
use relkvanu::outputs::{pack, unpack, Target, TargetFault};
use std::sync::{Mutex, PoisonError};

const MAKE: &str = "CREATE TABLE IF NOT EXISTS relkvanu_entries \
    (output VARCHAR(200), job VARCHAR(200), record BIGINT, digest VARCHAR(64), PRIMARY KEY (output, job, record))";
const ENTER: &str = "INSERT INTO relkvanu_entries VALUES ($1, $2, $3, $4) ON CONFLICT DO NOTHING";
const FIND: &str = "SELECT digest FROM relkvanu_entries WHERE output = $1 AND job = $2 AND record = $3";

/// A database, and what writes a row within its transaction.
pub struct Table<D> {
    database: Mutex<D>,
    name: String,
}

/// What a table needs of its database.
pub trait Database: Send {
    /// In one transaction: enters the number, and if it is new, writes the rows. Returns the digest that is there.
    fn publish(&mut self, entry: (&str, &str, i64, &str), rows: &[Vec<u8>]) -> Result<String, TargetFault>;
}

impl<D: Database> Target for Table<D> {
    fn name(&self) -> String {
        self.name.clone()
    }

    fn keeps_rows(&self) -> bool {
        true
    }

    fn prepare(&self, _job: &str, _record: u64, rows: &[Vec<u8>]) -> Result<Vec<u8>, TargetFault> {
        Ok(pack(rows))
    }

    fn publish(&self, job: &str, record: u64, kept: &[u8]) -> Result<(), TargetFault> {
        let rows = unpack(kept).ok_or(TargetFault::Lost)?;
        let digest = openssl::base64::encode_block(&sha256(kept));
        let mut database = self.database.lock().unwrap_or_else(PoisonError::into_inner);
        let found = database.publish((&self.name, job, record as i64, &digest), &rows)?;
        if found == digest {
            Ok(())
        } else {
            Err(TargetFault::OtherRows)
        }
    }

    fn give_up(&self, _job: &str) -> Result<(), TargetFault> {
        Ok(()) // nothing is prepared there
    }
}

/// A connection to SQLite, and what writes a row.
#[cfg(feature = "sqlite")]
pub struct Sqlite<F> {
    connection: rusqlite::Connection,
    write: F,
}

#[cfg(feature = "sqlite")]
impl<F: Fn(&rusqlite::Transaction<'_>, &[u8]) -> rusqlite::Result<()> + Send> Table<Sqlite<F>> {
    /// Of this name, which no other table of the database's jobs has.
    pub fn of_sqlite(name: &str, connection: rusqlite::Connection, write: F) -> rusqlite::Result<Table<Sqlite<F>>> {
        connection.execute(MAKE, ())?;
        Ok(Table { database: Mutex::new(Sqlite { connection, write }), name: name.to_string() })
    }
}

#[cfg(feature = "sqlite")]
impl<F: Fn(&rusqlite::Transaction<'_>, &[u8]) -> rusqlite::Result<()> + Send> Database for Sqlite<F> {
    fn publish(&mut self, entry: (&str, &str, i64, &str), rows: &[Vec<u8>]) -> Result<String, TargetFault> {
        let (name, job, record, digest) = entry;
        let within = self.connection.transaction_with_behavior(rusqlite::TransactionBehavior::Immediate)?;
        if within.execute(ENTER, (name, job, record, digest))? == 0 {
            return Ok(within.query_row(FIND, (name, job, record), |row| row.get(0))?);
        }
        rows.iter().try_for_each(|row| (self.write)(&within, row))?;
        within.commit()?;
        Ok(digest.to_string())
    }
}

/// How PostgreSQL is reached, and what makes the values of a row's statement.
#[cfg(feature = "postgres")]
pub struct Postgres<F> {
    runtime: tokio::runtime::Runtime,
    config: tokio_postgres::Config,
    client: Option<tokio_postgres::Client>,
    insert: String,
    values: F,
}

/// The values of a row, in the order of the statement's `$1`, `$2` and so on.
#[cfg(feature = "postgres")]
pub type Values = Vec<Box<dyn tokio_postgres::types::ToSql + Send + Sync>>;

#[cfg(feature = "postgres")]
impl<F: Fn(&[u8]) -> Values + Send> Table<Postgres<F>> {
    /// Of this name, which no other table of the database's jobs has. `insert` is the statement for a row, such as `INSERT INTO words VALUES ($1, $2)`. It
    /// connects again after a failure.
    pub fn of_postgres(
        name: &str,
        config: tokio_postgres::Config,
        insert: &str,
        values: F,
    ) -> Result<Table<Postgres<F>>, TargetFault> {
        let runtime = tokio::runtime::Builder::new_multi_thread().worker_threads(1).enable_all().build()?;
        let mut database = Postgres { runtime, config, client: None, insert: insert.to_string(), values };
        let client = database.connected()?;
        database.runtime.block_on(client.batch_execute(MAKE))?;
        database.client = Some(client);
        Ok(Table { database: Mutex::new(database), name: name.to_string() })
    }
}

#[cfg(feature = "postgres")]
impl<F> Postgres<F> {
    fn connected(&mut self) -> Result<tokio_postgres::Client, TargetFault> {
        if let Some(client) = self.client.take().filter(|it| !it.is_closed()) {
            return Ok(client);
        }
        let (client, connection) = self.runtime.block_on(self.config.connect(tokio_postgres::NoTls))?;
        self.runtime.spawn(connection); // what it fails with the client's next statement does
        Ok(client)
    }
}

#[cfg(feature = "postgres")]
impl<F: Fn(&[u8]) -> Values + Send> Database for Postgres<F> {
    fn publish(&mut self, entry: (&str, &str, i64, &str), rows: &[Vec<u8>]) -> Result<String, TargetFault> {
        let mut client = self.connected()?; // one that fails is dropped
        let (insert, values) = (&self.insert, &self.values);
        let told = self.runtime.block_on(publish(&mut client, entry, insert, rows.iter().map(|row| values(row))))?;
        self.client = Some(client);
        Ok(told)
    }
}

#[cfg(feature = "postgres")]
async fn publish(
    client: &mut tokio_postgres::Client,
    (name, job, record, digest): (&str, &str, i64, &str),
    insert: &str,
    rows: impl Iterator<Item = Values>,
) -> Result<String, TargetFault> {
    let within = client.transaction().await?;
    if within.execute(ENTER, &[&name, &job, &record, &digest]).await? == 0 {
        return Ok(within.query_one(FIND, &[&name, &job, &record]).await?.get(0));
    }
    let insert = within.prepare(insert).await?;
    for row in rows {
        within.execute_raw(&insert, row.iter().map(|it| &**it as &(dyn tokio_postgres::types::ToSql + Sync))).await?;
    }
    within.commit().await?;
    Ok(digest.to_string())
}
