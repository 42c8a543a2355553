//! The range of each value of a sheet that is written as text: panel FILE.

use service_host::{Service, text};

fn main() -> Result<(), Box<dyn std::error::Error>> {
    let file = std::env::args().nth(1).ok_or("expected the name of a file")?;
    let (sheet, names) = text::parse(&std::fs::read_to_string(file)?)?;
    let mut service = Service::new();
    let answer = service.infer(0, &sheet.words())?;
    for (id, range) in sheet.identifier_ids().zip(answer.ranges()) {
        println!("{} {}..{}", names.identifier(id), range.start.0, range.end.0);
    }
    Ok(())
}
