//! The recorded sample: the same cases on every machine, each once.
use crate::tables::{self, Asked};
use crate::{decisions, drafters, lookups};
use numbers::dice::Dice;
use numbers::word_case::{dealt, WordCase};
use numbers::{decimal_texts, spellings, whole_texts};
use oracle::costs::lent_table::LentTable;
use oracle::costs::table_texts::{self, Shape, Text, SHAPES};
use oracle::costs::{lent_tables, lookup_values};

const SEED: u64 = 1;

/// The sentence that says the space.
pub fn space() -> String {
    format!(
        "space: texts of cost tables of up to 200 rows, faulty and damaged copies and short room \
         among them; lookups in lent tables, whole and damaged; drafter costs and switching with \
         special values at every place, at and beside every limit, and random ones; seed {SEED}"
    )
}

pub fn recorded() -> Vec<WordCase> {
    let dice = &mut Dice::new(SEED);
    let mut groups = table_groups(dice);
    groups.push(lookup_limits(dice));
    groups.push((0..700).map(|_| lookup(8, dice)).collect());
    groups.push((0..12).map(|_| lookup(200, dice)).collect());
    groups.extend(drafter_groups(dice));
    groups.push(sparse(decisions::every_walk(), 7));
    groups.push(decisions::specials());
    groups.push((0..500).map(|_| decisions::random(dice)).collect());
    dealt(groups)
}

/// One in so many.
fn sparse<T>(all: Vec<T>, step: usize) -> Vec<T> {
    all.into_iter().step_by(step).collect()
}

fn drafter_groups(dice: &mut Dice) -> Vec<Vec<WordCase>> {
    let groups = [
        sparse(drafters::specials(), 5),
        sparse(drafters::limits(), 2),
        drafters::large(dice),
        (0..400).map(|_| small_drafter(dice)).collect(),
    ];
    let cases = |questions: &Vec<drafters::Question>| {
        questions.iter().map(drafters::Question::case).collect()
    };
    groups.iter().map(cases).collect()
}

/// One of few sequences.
fn small_drafter(dice: &mut Dice) -> drafters::Question {
    loop {
        let question = drafters::random(dice);
        if question.loaded.len() < 40 {
            return question;
        }
    }
}

fn table_groups(dice: &mut Dice) -> Vec<Vec<WordCase>> {
    vec![
        lines_and_fields(),
        numbers_in_a_row(),
        rooms(dice),
        shapes(dice),
        (0..300).map(|_| random_table(dice)).collect(),
    ]
}

/// Lines and fields where their rules turn, behind a header or with one of their own.
const ROWS: &[&str] = &[
    "",
    "\n",
    "\r",
    "1,1,1",
    "1,1,1\n",
    "1,1,1\r\n",
    "1,1,1\r",
    "1,1,1\r\r\n",
    "1,1,1\n\r",
    "1,1,1\n\n",
    "\n1,1,1\n",
    " \t\x0b\x0c\r\n1,1,1\n \n",
    "1,1,1\n,\n",
    "1,1,1,\n",
    "1,1\n",
    ",,\n",
    ",1,1\n",
    "1,,1\n",
    "1,1,\n",
    " 1 ,\t2\x0b, +1.5 \n",
    "1 1,1,1\n",
    "\x1c1,1,1\n",
    "1,1,1\x1f\n",
    "1;1;1\n",
    "4,1,1.0\n2,1,1.5\n1,1,1.9\n",
    "1,1,1.3\n2,1,1\n",
    "1,1,1.30000000000001\n2,1,1\n",
    "1,1,0.65\n2,1,.5\n",
    "1,1,9\n1,2,1\n",
    "1,2,1\n1,1,9\n2,1,1\n",
    "1,1,3\n1,1,2\n1,1,1\n",
    "1,1,1\n1,1,2\n1,1,3\n",
    "0,1,1\n4294967295,1,1\n",
    "4294967296,1,1\n",
    "1,4294967295,1\n1,4294967294,2\n",
    "1,4294967296,1\n",
    "1,0,0\n",
    "1,0,1\n",
    "1,1,0\n",
    "1,1,-0\n",
    "1,1,-1\n",
    "x,y,z\n",
    "1,y,z\n",
    "1,1,z\n",
    "1,1,inf\n",
    "1,1,nan\n",
    "1,1,1e5\n",
    "1,1,1e400\n",
    "1,1,0.0000000000000000000001\n",
    "1,1,0.00000000000000000000001\n",
    "1,1,1234567890123456\n",
    "1,1,123456789012345\n",
    "1,1,\u{e9}\n",
    "1,1,1\u{a0}\n",
    "\u{3000}\n1,1,1\n",
    "1,1,1\nbatch_size,num_draft_tokens,step_seconds\n",
];

const HEADERS: &[&str] = &[
    "",
    "\n",
    ",",
    ",,\n",
    "batch_size,num_draft_tokens,step_seconds",
    "batch_size,num_draft_tokens,step_seconds\r",
    " batch_size ,\tnum_draft_tokens,step_seconds\x0b\r\n1,1,1\n",
    "batch_size,num_draft_tokens\n1,1\n",
    "batch_size,num_draft_tokens,step_seconds,\n1,1,1,\n",
    "num_draft_tokens,batch_size,step_seconds\n1,1,1\n",
    "Batch_size,num_draft_tokens,step_seconds\n1,1,1\n",
    "batch_size;num_draft_tokens;step_seconds\n1,1,1\n",
    "\nbatch_size,num_draft_tokens,step_seconds\n1,1,1\n",
    "\u{feff}batch_size,num_draft_tokens,step_seconds\n1,1,1\n",
    "batch_size,num_draft_tokens,step_seconds\u{a0}\n1,1,1\n",
    "batch_size,num_draft_tokens,step_second\n1,1,1\n",
];

fn behind_the_header(rows: &[u8]) -> Vec<u8> {
    [table_texts::HEADER.join(",").as_bytes(), b"\n", rows].concat()
}

fn lines_and_fields() -> Vec<WordCase> {
    let rows = ROWS.iter().map(|rows| behind_the_header(rows.as_bytes()));
    let headers = HEADERS.iter().map(|text| text.as_bytes().to_vec());
    let bytes = [&b"\xff"[..], b"batch_size\x80"].map(<[u8]>::to_vec);
    let texts = rows.chain(headers).chain(bytes);
    texts
        .flat_map(|text| {
            [
                tables::read(&text, [3, 4, 5]),
                tables::read(&text, [1, 1, 1]),
            ]
        })
        .collect()
}

/// Numbers at the edges of the rules in each of the three fields.
fn numbers_in_a_row() -> Vec<WordCase> {
    let mut cases = Vec::new();
    let mut put = |before: &str, number: &[u8], after: &str| {
        let row = [before.as_bytes(), number, after.as_bytes()].concat();
        cases.push(tables::read(&behind_the_header(&row), [2, 2, 2]));
    };
    for number in spellings::edges().iter().step_by(3) {
        put("1,1,", number, "\n");
    }
    for number in spellings::edges().iter().skip(1).step_by(9) {
        put("", number, ",1,1\n");
        put("1, ", number, " ,1\n");
    }
    let short = |text: &&Vec<u8>| text.len() < 40;
    for number in whole_texts::limits().iter().filter(short).step_by(7) {
        put("", number, ",1,1\n");
        put("2,3,4\n1,", number, ",1\n");
    }
    for number in decimal_texts::limits().iter().filter(short).step_by(5) {
        put("1,1,", number, "");
    }
    cases
}

/// Small tables in just enough room, in one slot less, and in none.
fn rooms(dice: &mut Dice) -> Vec<WordCase> {
    let mut cases = Vec::new();
    for shape in SHAPES {
        let text = Text::new(shape, dice.between(1, 5), dice);
        let rows = text.rows();
        let bytes = text.bytes(dice);
        for short in 0..3 {
            let mut room = [rows; 3];
            room[short] -= 1;
            cases.push(tables::read(&bytes, room));
        }
        cases.push(tables::read(&bytes, [rows; 3]));
        cases.push(tables::read(&bytes, [rows + 2, rows, rows + 1]));
        cases.push(tables::read(&bytes, [0; 3]));
    }
    cases
}

/// Every shape, of one row to 200.
fn shapes(dice: &mut Dice) -> Vec<WordCase> {
    let mut cases = Vec::new();
    for shape in SHAPES {
        for rows in [1, 2, 3, 5, 9, 17, 33, 64, 65, 200] {
            let bytes = Text::new(shape, rows, dice).bytes(dice);
            cases.push(tables::read(&bytes, [rows; 3]));
        }
    }
    cases
}

/// A text of up to twelve rows, at times with faults.
fn random_table(dice: &mut Dice) -> WordCase {
    let rows = dice.between(0, 12);
    let text = Text::new(dice.pick(&SHAPES), rows, dice);
    let (text, rows) = table_texts::random(text, dice);
    tables::read(&text, table_texts::room(rows, dice))
}

fn lookup(most: usize, dice: &mut Dice) -> WordCase {
    let rows = dice.between(0, most);
    let table = lent_tables::random_table_of(rows, dice);
    tables::lookup(&table, lookups::random_question(&table, dice))
}

/// Every question of one table, damaged in every way that there is.
fn lookup_limits(dice: &mut Dice) -> Vec<WordCase> {
    let rows = lent_tables::kept_rows(Shape::Grid, 12, dice);
    let whole = LentTable::of(&rows);
    let mut lent = vec![whole.clone(), LentTable::of(&[])];
    lent.extend(lent_tables::every_damage(&whole));
    let questions = [
        Asked::Refusal,
        Asked::StepTime { batch: 3, depth: 0 },
        Asked::HasDraft { depth: 0 },
        Asked::BatchRange { depth: 0 },
        Asked::MaxBatch { depth: 3 },
        Asked::StepTimeFrac {
            batch: 3,
            g: 2.5f64.to_bits(),
        },
    ];
    let cases = |table: &LentTable| questions.map(|asked| tables::lookup(table, asked));
    let mut all: Vec<WordCase> = lent.iter().flat_map(cases).collect();
    for &kv_delta in lookup_values::DELTAS {
        all.push(tables::lookup(
            &whole,
            Asked::PriceCurve { batch: 3, kv_delta },
        ));
    }
    for &g in lookup_values::SPECIAL_DEPTHS {
        all.push(tables::lookup(&whole, Asked::StepTimeFrac { batch: 3, g }));
    }
    all
}

#[cfg(test)]
mod tests {
    use super::*;
    use numbers::sampling::{assert_steady, kinds_at_the_start, refusals_met};

    #[test]
    fn the_sample_is_the_same_each_time_and_of_the_size_wanted() {
        assert_steady(recorded, 4000..=8000, 3_000_000);
    }

    #[test]
    fn every_refusal_is_met() {
        let met = refusals_met(&recorded());
        let of = |kind: u8| met[&kind].clone();
        // 11 needs 4,097 rows, which only the random runs have; 20 is never given
        assert_eq!(of(b't'), [0, 1, 2, 3, 4, 5, 6, 7, 8, 9, 10, 16]);
        for kind in *b"jshrmfp" {
            assert_eq!(of(kind), [0, 11, 15, 16], "{}", kind as char);
        }
        for kind in *b"dqg" {
            assert_eq!(of(kind), [0, 11, 12, 15, 16], "{}", kind as char);
        }
        assert_eq!(
            (of(b'v'), of(b'w'), of(b'b')),
            (vec![0, 12], vec![0, 15], vec![0])
        );
        for kind in *b"cl" {
            assert_eq!(of(kind), [0, 11, 12, 15], "{}", kind as char);
        }
        assert_eq!(
            (of(b'k'), of(b'i'), of(b'u')),
            (vec![0], vec![0, 11], vec![0, 12])
        );
        for kind in *b"eno" {
            assert_eq!(of(kind), [0, 15], "{}", kind as char);
        }
    }

    #[test]
    fn a_beginning_holds_every_kind() {
        assert_eq!(kinds_at_the_start(&recorded()), 23);
    }
}
