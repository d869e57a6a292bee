//! Prints the examples and the stories as lines for `c/player.c`: each from a fresh state, its words, the kinds that a story
//! names between them, and what the registers then read. The long list at a batch's limit is left out; it is about the
//! call, not about the words.

use paper::Step;

const A_LINE: usize = 32;
const LONGEST: usize = 5_000;

fn tell_words(words: &[u16]) {
    for line in words.chunks(A_LINE) {
        let words: Vec<String> = line.iter().map(|word| format!("{:04X}", word)).collect();
        println!("words {}", words.join(" "));
    }
}

fn main() {
    for example in paper::examples() {
        if example.words.is_empty() || example.words.len() > LONGEST {
            continue;
        }
        println!("begin");
        tell_words(&example.words);
        println!("registers");
    }
    for story in paper::stories() {
        println!("begin");
        for step in &story.steps {
            match step {
                Step::Name { number, .. } => println!("kind {}", number),
                Step::Words(words) => tell_words(words),
                Step::Records(_) | Step::Reads(..) | Step::Outputs(_) => {}
            }
        }
        println!("registers");
    }
}
