use abt::{Code, Picoseconds, Policer, Table, Units};

fn main() -> Result<(), Box<dyn std::error::Error>> {
    let mut policer = Policer::new(Picoseconds(200))?;
    println!("{:?}", policer.arrive(Picoseconds(5), Code(0x5120))?);
    println!("{}", Table::new(Units(u64::MAX)).unwrap_err());
    Ok(())
}
