//! Settings of a file: what it sets, what of it is unknown, and what is wrong.
//
// It prints:
//     2:1: global.prefx: this table has no such key, global.prefix may be meant
//     2 publishers of 18 samples each, 4 subscribers
//     refused: 4:1: defaults.publish-subscribe.max-subscribers: is not an integer from 0 to 9223372036854775807
#![forbid(unsafe_code)]

use iox2sd::prelude::*;
use std::error::Error;

const FILE: &str = "\
[global]
prefx = 'own_'
[defaults.publish-subscribe]
max-subscribers = 4
";

fn main() -> Result<(), Box<dyn Error>> {
    let file = Config::from_toml(FILE)?;
    for key in &file.unknown {
        println!("{key}");
    }
    let settings = file.config.defaults.publish_subscribe;
    let (publishers, subscribers) = (settings.max_publishers, settings.max_subscribers);
    let samples = settings.required_amount_of_samples_per_data_segment();
    let samples = samples.ok_or("too many samples")?;
    println!("{publishers} publishers of {samples} samples each, {subscribers} subscribers");
    if let Err(refused) = Config::from_toml(&FILE.replace('4', "-4")) {
        println!("refused: {refused}");
    }
    Ok(())
}
