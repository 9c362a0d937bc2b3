//! A planner's evening: see for each link of resort A whether nodes 1 and 3 would gain if it were raised by one
//! megabit. The plan is left as it is.
use pamzolit::{Node, Plan};
use std::error::Error;

const RESORT_A: [u8; 17] = [4, 5, 0, 1, 5, 1, 2, 3, 2, 3, 4, 0, 3, 2, 0, 2, 1];

fn main() -> Result<(), Box<dyn Error>> {
    let plan = Plan::open(&RESORT_A)?;
    println!("nodes 1 and 3 now: {} tenths", plan.pair(Node(1), Node(3))?.weight);
    for link in plan.links() {
        let preview = plan.preview(link.link, link.capacity + 10, Node(1), Node(3))?;
        println!("link {} raised by 10: {} tenths", link.link, preview.pair.weight);
    }
    Ok(())
}
