//! The library's kilosteps, through C, beside the model's, for words of every size.

use model::kilosteps::kilosteps as model;
use ola::kilosteps;
use oracle::splitmix::SplitMix64;

/// The papers' own numbers, of both.
#[test]
fn the_papers_numbers() {
    for (clk, thousands) in [(499, 0), (500, 0), (1500, 2), (2500, 2), (2501, 3)] {
        assert_eq!(kilosteps(clk), thousands, "{clk}");
        assert_eq!(model(clk), thousands, "{clk}");
    }
}

#[test]
fn each_of_the_first_words() {
    for clk in 0..=3_000_000 {
        assert_eq!(kilosteps(clk), model(clk), "{clk}");
    }
}

/// Drawn words of each length in bits, the half of their thousand, and what stands beside both.
#[test]
fn words_of_every_length() {
    let mut random = SplitMix64::new(104);
    for bits in 1..=64 {
        for _ in 0..10_000 {
            let word = random.draw() >> (64 - bits);
            for middle in [word, word / 1000 * 1000 + 500] {
                for clk in [middle.saturating_sub(1), middle, middle.saturating_add(1)] {
                    assert_eq!(kilosteps(clk), model(clk), "{clk}");
                }
            }
        }
    }
    assert_eq!(kilosteps(u64::MAX), 18_446_744_073_709_552);
}
