//! What the process asks of the system for itself.
use rustix::process::{getrlimit, setrlimit, Resource, Rlimit};
use std::thread::{Builder, JoinHandle};

/// Starts a thread under a name of at most 15 bytes, which `top -H` shows. The process ends if there can be no thread.
pub fn thread<T: Send + 'static>(name: &str, work: impl FnOnce() -> T + Send + 'static) -> JoinHandle<T> {
    match Builder::new().name(name.to_string()).spawn(work) {
        Ok(thread) => thread,
        Err(why) => panic!("there is no thread for {name}: {why}"),
    }
}

/// Files that are made from now on are this user's alone: a database has the names of jobs and files, and a log may have more.
pub fn make_files_private() {
    // SAFETY: the call takes any mask, cannot fail and reads no memory of ours. No other thread runs yet.
    unsafe { libc::umask(0o077) };
}

/// Gives memory back to the system that was freed here: what a thread has freed would stay with the process after its end.
pub fn free_memory() {
    // SAFETY: the call takes any number, and touches no memory that is in use.
    unsafe { libc::malloc_trim(0) };
}

/// How many files may be open.
pub fn files_limit() -> u64 {
    getrlimit(Resource::Nofile).current.unwrap_or(u64::MAX)
}

/// Raises the number of files that may be open as far as the system allows, and returns it.
pub fn most_files() -> u64 {
    let limit = getrlimit(Resource::Nofile);
    // one that can't be raised stays
    let _ = setrlimit(Resource::Nofile, Rlimit { current: limit.maximum, ..limit });
    files_limit()
}
