//! Values built in place are those that deserialising gives.

use oracle::generate::{Aim, aimed};
use oracle::model::Side;
use oracle::reader::read;
use oracle::rng::Rng;
use oracle::{json, values};

#[test]
fn both_ways_give_one_value() {
    let mut rng = Rng::new(8);
    let mut compared = 0;
    for nth in 0..600 {
        let aim = match nth % 3 {
            0 => Aim::Accepted,
            1 => Aim::Wild,
            _ => Aim::Mutated,
        };
        let pair = aimed(aim, &mut rng);
        if let Ok(record) = read(Side::Current, &pair.current.stream, &pair.current.pool) {
            let (one, other) = (
                json::schema(&record.content),
                values::schema(&record.content),
            );
            assert_eq!(format!("{one:?}"), format!("{other:?}"));
            compared += 1;
        }
        if let Ok(record) = read(Side::Released, &pair.released.stream, &pair.released.pool) {
            let (one, other) = (
                json::released(&record.content),
                values::released(&record.content),
            );
            assert_eq!(format!("{one:?}"), format!("{other:?}"));
            compared += 1;
        }
    }
    assert!(compared > 1_000, "{compared}");
}
