//! An independent reference of the `console` program: a script on standard input, what `console` must print on output.
//! It keeps the whole history of a booking and answers each question from it.

mod booking;
mod calls;
mod check;
mod counting;
mod events;
mod filter;
mod line;
mod monitor;
mod records;
mod script;
mod sending;
mod settings;
mod show;
mod slots;
mod unit;

use calls::Board;
use script::{Area, Order};
use slots::Sizes;
use std::io::{Read, Write};

fn fix_size(sizes: &mut Sizes, area: Area, value: usize) {
    match area {
        Area::Pool => sizes.pool = Some(value),
        Area::Descriptors => sizes.descriptors = Some(value),
        Area::Records => sizes.records = Some(value),
        Area::Output => sizes.output = Some(value),
    }
}

/// Does what a line orders and gives what it prints.
fn carry_out(board: &mut Board, order: &Order) -> String {
    match order {
        Order::Nothing => {}
        Order::Call(call) => return board.make(call),
        Order::Size(area, value) => fix_size(&mut board.sizes, *area, *value),
        Order::SizeAuto => board.sizes = Sizes::default(),
        Order::PokePool(index, value) => board.memory.pool[*index] = *value,
        Order::PokeDescriptor(index, value) => board.memory.descriptors[*index] = *value,
        Order::Show => return show::show(board),
        Order::Slots => return show::slots(board),
        Order::Help => return format!("{}end\n", script::HELP),
    }
    String::new()
}

/// All that the script prints. "A line that can't be read prints `? LINE-NUMBER` and changes nothing."
fn run(script: &[u8]) -> String {
    let mut board = Board::new();
    let mut printed = String::new();
    for (before, line) in script::lines(script).enumerate() {
        match script::read_line(line) {
            Some(order) => printed += &carry_out(&mut board, &order),
            None => printed += &format!("? {}\n", before + 1),
        }
    }
    printed
}

fn main() -> std::io::Result<()> {
    let mut script = Vec::new();
    std::io::stdin().read_to_end(&mut script)?;
    std::io::stdout().write_all(run(&script).as_bytes())
}
