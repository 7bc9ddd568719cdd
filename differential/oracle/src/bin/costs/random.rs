//! Random cases from a seed, without end.
use crate::{decisions, drafters, lookups, tables};
use numbers::dice::Dice;
use numbers::word_case::WordCase;
use oracle::costs::{lent_tables, table_texts};

const MOST_ROWS: usize = 4096;

/// The sentence that says the space.
pub fn space(seed: u64) -> String {
    format!(
        "space: random cost tables of up to 4,097 rows, faulty and damaged texts and short room \
         among them; lookups in lent tables, whole and damaged; drafter costs of up to 1,025 \
         sequences and switching, values out of range among them; seed {seed}"
    )
}

/// A third are tables and lookups, a third drafter costs, a third switching.
pub fn cases(seed: u64) -> impl Iterator<Item = WordCase> {
    let mut dice = Dice::new(seed);
    std::iter::repeat_with(move || case(&mut dice))
}

fn case(dice: &mut Dice) -> WordCase {
    match dice.below(12) {
        0 => table(dice),
        1..=3 => lookup(dice),
        4..=7 => drafters::random(dice).case(),
        _ => decisions::random(dice),
    }
}

/// A text that is read; one in some thousands has about as many rows as the rules take.
fn table(dice: &mut Dice) -> WordCase {
    let text = if dice.once_in(3000) {
        let rows = dice.between(MOST_ROWS - 1, MOST_ROWS + 1);
        table_texts::Text::new(dice.pick(&table_texts::SHAPES), rows, dice)
    } else {
        table_texts::Text::random(MOST_ROWS, dice)
    };
    let (text, rows) = table_texts::random(text, dice);
    tables::read(&text, table_texts::room(rows, dice))
}

fn lookup(dice: &mut Dice) -> WordCase {
    let most = if dice.once_in(20) { MOST_ROWS } else { 200 };
    let table = lent_tables::random_table(most, dice);
    let asked = lookups::random_question(&table, dice);
    tables::lookup(&table, asked)
}
