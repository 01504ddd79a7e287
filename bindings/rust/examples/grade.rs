//! Makes a certificate of the plan on standard input, checks it, and prints the grade.
use fikzarn::{certify, check, CERTIFICATE_ROOM};
use std::io::Read;

fn main() -> std::io::Result<()> {
    let mut plan = Vec::new();
    std::io::stdin().read_to_end(&mut plan)?;
    let mut room = [0; CERTIFICATE_ROOM];
    match certify(&plan, &mut room) {
        Ok(made) => println!("{}", check(&plan, made.certificate)),
        Err(refused) => println!("{refused}"),
    }
    Ok(())
}
