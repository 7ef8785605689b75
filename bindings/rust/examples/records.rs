//! A small controller's table of 256 records, with a map of those that are free: records taken and given back, a run of them for a
//! trend, a give-back that is refused and put right, and the map saved and read back after a restart. It prints what happens, as
//! examples/c/records.c does. Run: `cargo run --example records`.

use asogeren::{BitAlloc256, Refusal};

/// Prints an answer, or why there is none.
fn told(what: &str, answer: Result<usize, Refusal>) {
    match answer {
        Ok(value) => println!("{what}: {value}"),
        Err(refusal) => println!("{what}: {refusal}"),
    }
}

/// The same of a change.
fn done(what: &str, answer: Result<(), Refusal>) {
    match answer {
        Ok(()) => println!("{what}: done"),
        Err(refusal) => println!("{what}: {refusal}"),
    }
}

fn main() -> Result<(), Refusal> {
    let mut records = BitAlloc256::default();

    // records 0 to 7 are the controller's own
    done("records 8 to 255 are free", records.insert(8..BitAlloc256::CAP));

    told("blower 1 takes record", records.alloc());
    told("blower 2 takes record", records.alloc());
    told("blower 3 takes record", records.alloc());
    let trend = records.alloc_contiguous(None, 16, 4)?;
    told("a trend takes 16 at a multiple of 16, from record", Ok(trend));
    done("blower 2 gives record 9 back", records.dealloc(9));
    done("and once more", records.dealloc(9));

    // One too many: record 32 is free. Nothing was given back, so what was taken still can be.
    let back = records.dealloc_contiguous(trend, 17);
    done("the trend gives 17 back", back);
    if back == Err(Refusal::AlreadyFree) {
        done("the trend gives 16 back", records.dealloc_contiguous(trend, 16));
    }

    let mut flash = [0; BitAlloc256::IMAGE_BYTES];
    told("saved, bytes", records.image_write(&mut flash));
    records = BitAlloc256::NEW; // the restart
    done("read back", BitAlloc256::image_read(&flash).map(|read| records = read));
    told("blower 4 takes record", records.alloc());

    // A damaged image is refused, and the map stays as it is.
    flash[4] ^= 1;
    done(
        "read back, damaged",
        BitAlloc256::image_read(&flash).map(|read| records = read),
    );
    told("blower 5 takes record", records.alloc());
    Ok(())
}
