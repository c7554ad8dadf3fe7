//! `pescrondilu decode`.

mod order;
mod session;

use pescrondilu::Q15;

use order::Core;
pub use order::Order;
use session::Session;

use crate::fault::Outcome;

pub fn command(words: &[String]) -> Outcome<()> {
    run(&Order::parse(words)?)
}

pub fn run(order: &Order) -> Outcome<()> {
    match order.core {
        Core::F32 => Session::<f32>::open(order)?.run(),
        Core::Q15 => Session::<Q15>::open(order)?.run(),
    }
}
