//! What the programs in bin/ share: compare and soak (the library against the reference), measure (time) and stack.
pub mod ahead;
#[path = "../../include/bdre.rs"]
pub mod bdre;
pub mod both;
pub mod clusters;
pub mod damage;
pub mod queues;
pub mod random;
pub mod reference;
pub mod sheets;

/// The words on the command line, which are numbers; else the program ends with status 2.
pub fn numbers(usage: &str) -> Vec<usize> {
    let number = |word: String| {
        word.parse().unwrap_or_else(|_| {
            eprintln!("usage: {usage}");
            std::process::exit(2)
        })
    };
    std::env::args().skip(1).map(number).collect()
}
