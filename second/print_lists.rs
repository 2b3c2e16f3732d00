//! Prints the random lists of calls with the book's replies, for cross.py.
//!
//!     print_lists FROM TO

mod book;
mod cases;
mod patterns;
mod tries;

use book::Book;
use cases::{hex, Call, Random};

/// The blocks of an image that are not all zero.
fn print_image(book: &Book) {
    const BLOCK: usize = 1024;
    let image = book.image();
    let blocks = image.chunks(BLOCK).enumerate().filter(|(_, block)| block.iter().any(|&byte| byte != 0));
    let text: Vec<String> = blocks.map(|(at, block)| format!("{at}:{}", hex(block))).collect();
    println!("image {} {}", image.len(), text.join(" "));
}

fn print_list(seed: u64) {
    let mut random = Random(seed);
    let style = cases::style(&mut random);
    let mut book = Book::default();
    println!("list {seed}");
    for at in 0..10 + random.below(60) {
        let first = Call::Setup { lent: style.memory, numbers: style.numbers };
        let call = if at == 2 { first } else { cases::call(&mut random, &style, &book) };
        let (reply, answer) = cases::expected(&mut book, &call);
        println!("{}", call.text());
        println!("reply {} {} {} x{}", reply.number, reply.first, reply.second, hex(&answer));
        if random.chance(10) {
            print_image(&book);
        }
    }
    print_image(&book);
}

fn main() {
    let bounds: Vec<u64> = std::env::args().skip(1).map(|word| word.parse().expect("a number")).collect();
    (bounds[0]..bounds[1]).for_each(print_list);
}
