//! Prints assembly that loads the fewest entries of a map: 128 MiB of RAM whose first 2 MiB belong to the firmware.

use pmpmon::{Map, Perm, Setting};

const RAM: u64 = 0x8000_0000;

fn main() -> Result<(), pmpmon::MapError> {
    let settings =
        [Setting::new(RAM, 0x800_0000, Perm::ReadWriteExecute), Setting::new(RAM, 0x20_0000, Perm::NoAccess)];
    let plan = Map::new(&settings).plan(16)?;
    let Some(registers) = plan.registers() else {
        println!("# {} entries do not fit", plan.needed());
        return Ok(());
    };
    for (i, address) in registers.addr.iter().take(16).enumerate() {
        println!("li t0, {address:#x}\ncsrw pmpaddr{i}, t0");
    }
    for (i, word) in registers.cfg.iter().take(2).enumerate() {
        println!("li t0, {word:#x}\ncsrw pmpcfg{}, t0", 2 * i);
    }
    println!("sfence.vma");
    Ok(())
}
