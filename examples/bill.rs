//! A depot's bill in Rust: the books are opened with the plan and kept as reports come in, one of them twice. The yard is Y1 of document 01.

use sejjekoru::{Line, Record, Refusal, Reported, Yard, UNTOUCHED};

const YARD: Yard = Yard::new(4, &[0, 1, 1, 2, 1, 3], &[1, 0], &[0, 1]);

fn print_books(record: &Record, lines: &[Line]) {
    println!("{} done, highest slot {}", record.done, record.highest);
    for (line, bay) in lines.iter().zip(record.at) {
        print!("{} at {bay}: {} billed", line.carrier, line.billed);
        match line.last {
            UNTOUCHED => println!(),
            name => println!(", last {name}"),
        }
    }
}

fn main() -> Result<(), Refusal> {
    let mut room = [0; 64];
    let length = sejjekoru::plan(YARD, &mut room)?.length;
    let plan = &room[..length];
    let mut marks = vec![0; length];
    let (mut record, mut lines) = (Record::default(), [Line::default(); 2]);
    sejjekoru::open(YARD, plan, &marks, &mut record, &mut lines)?;
    print_books(&record, &lines);
    // the acknowledgement of 1 is lost, so it is reported again
    for name in [0, 1, 1, 2] {
        match sejjekoru::report_billed(YARD, plan, &mut marks, name, &mut record, &mut lines)? {
            Reported::Accepted => println!("report {name}: billed"),
            Reported::Already => println!("report {name}: already billed"),
        }
    }
    print_books(&record, &lines);
    lines[1].billed += 1;
    if !sejjekoru::agrees(YARD, plan, &marks, &record, &lines)? {
        println!("a crossing too many: the books do not agree, and are built again");
        sejjekoru::open(YARD, plan, &marks, &mut record, &mut lines)?;
    }
    print_books(&record, &lines);
    Ok(())
}
