//! A gate's evening, as examples/evening.c prints it: the window between nodes 1 and 3 of resort A is reset when the
//! gate opens, and read while bookings rise and fall and a link fails and is repaired.
use pamzolit::{Link, Node, Plan, Window};
use std::error::Error;

const RESORT_A: [u8; 17] = [4, 5, 0, 1, 5, 1, 2, 3, 2, 3, 4, 0, 3, 2, 0, 2, 1];

fn read(window: &mut Window, plan: &Plan, times: &[(&str, u32)]) {
    for (time, booked) in times {
        let reading = window.reading(plan, Node(1), Node(3), *booked);
        print!("{time} booked {booked:>10}: [{}] ", reading.unwrap_or_default());
        match reading {
            Ok(_) => println!("lowest {}", window.lowest()),
            Err(refusal) => println!("refused {}", refusal.number()),
        }
    }
}

fn main() -> Result<(), Box<dyn Error>> {
    let mut plan = Plan::open(&RESORT_A)?;
    let mut window = Window::new();
    println!("16:00 the gate opens");
    read(&mut window, &plan, &[("16:05", 1), ("17:00", 3), ("18:00", 5)]);
    plan.change(Link(2), 0)?;
    println!("18:20 link 2 fails");
    // the second is mistyped, and refused
    read(&mut window, &plan, &[("18:30", 5), ("18:40", 2_000_000_000), ("18:41", 4)]);
    plan.undo()?;
    println!("18:50 link 2 is repaired");
    read(&mut window, &plan, &[("19:00", 6), ("20:00", 4), ("21:30", 2)]);
    let (count, lowest, last) = (window.count(), window.lowest(), window.last());
    println!("22:00 the gate closes: {count} readings, lowest {lowest}, last {last}");
    Ok(())
}
