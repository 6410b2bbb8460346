//! A lane of the weighbridge: a truck is weighed empty, comes back loaded, and its donor gets a receipt.

use reefcandor::{Dict, Refused, Value};

/// In milliseconds: an empty weight counts for two hours.
const LIFETIME: u64 = 2 * 60 * 60 * 1000;

/// The receipt for a loaded truck. Weights are in grams; only a live tare under this very plate gives a net weight.
fn receipt(yard: &mut Dict, clock: u64, plate: &str, gross: i64) -> String {
    match yard.get(clock, plate.as_bytes()) {
        Ok(found) => match found.value {
            Value::Number(tare) if 0 < tare && tare < gross => {
                format!("{plate:?}: {} kg donated", (gross - tare) / 1000)
            }
            _ => format!("{plate:?}: no receipt, the tare does not fit: weigh empty"),
        },
        Err(refused) => format!("{plate:?}: no receipt, {refused}: weigh empty"),
    }
}

fn main() -> Result<(), Refused> {
    let mut yard = Dict::new(64)?;
    let morning = 1_000;
    yard.set(morning, b"AB12", Value::Number(14_200_000), LIFETIME, 0)?;

    println!("{}", receipt(&mut yard, morning + 1, "AB12", 22_660_000));
    // the camera could not read the plate: no other truck's tare comes out
    println!("{}", receipt(&mut yard, morning + 2, "", 22_660_000));
    println!("{}", receipt(&mut yard, morning + LIFETIME, "AB12", 22_660_000));
    Ok(())
}
