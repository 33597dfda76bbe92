// Reads and parses the pages of a catalog with stock serde_json: the program beside which `checks/speed.sh` takes the time of
// openings.
//
// Its words are the catalog's folder and the number of its pages. It prints how many items they have.

use serde_json::Value;
use std::{env, error::Error, fs};

fn main() -> Result<(), Box<dyn Error>> {
    let mut words = env::args().skip(1);
    let (Some(folder), Some(count)) = (words.next(), words.next()) else {
        return Err("the words are a folder and a number of pages".into());
    };
    let mut items = 0;
    for page in 0..count.parse::<u32>()? {
        let value: Value = serde_json::from_slice(&fs::read(format!("{folder}/page{page}.json"))?)?;
        items += value["items"].as_array().map_or(0, Vec::len);
    }
    println!("{items}");
    Ok(())
}
