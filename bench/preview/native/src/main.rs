//! The yardstick: reads a JSON file as a value and writes it again, in lines, with a line feed.
use std::io::Write;

fn main() -> Result<(), Box<dyn std::error::Error>> {
    let path = std::env::args().nth(1).ok_or("usage: rewrite FILE")?;
    let bytes = std::fs::read(path)?;
    let value: serde_json::Value = serde_json::from_slice(&bytes)?;
    let mut text = serde_json::to_vec_pretty(&value)?;
    text.push(b'\n');
    std::io::stdout().write_all(&text)?;
    Ok(())
}
