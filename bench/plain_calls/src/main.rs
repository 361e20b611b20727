//! Makes one kind of call as often as each line of standard input says, and writes a number of what was answered, as
//! `bench_calls` does: what that program is measured against.

mod attached;
mod described;
mod description;
#[path = "../../plain/src/registry.rs"]
mod registry;
mod service;
mod task;

use std::io::{self, BufRead};
use task::Task;

fn main() -> io::Result<()> {
    for line in io::stdin().lock().lines() {
        match Task::read(&line?) {
            Some(task) => println!("{}", task.digest().map_err(io::Error::from)?),
            None => println!("no such call"),
        }
    }
    Ok(())
}
