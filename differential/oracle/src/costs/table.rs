//! A cost table in text, as docs/RULES.md has it, read by hand over bytes.
use numbers::lines::{fields, lines, trimmed};
use numbers::reading;
use numbers::refusal::Refusal;

const MOST_ROWS: usize = 4096;
const HEADER: [&[u8]; 3] = [b"batch_size", b"num_draft_tokens", b"step_seconds"];

/// A measured row, its seconds by their bits.
#[derive(Clone, Copy, Debug, PartialEq, Eq, Hash)]
pub struct Row {
    pub depth: u32,
    pub batch: u32,
    pub seconds: u64,
}

/// The rows of an accepted text: all of them in order, and those that are kept.
#[derive(Debug, PartialEq, Eq)]
pub struct Table {
    pub ordered: Vec<Row>,
    pub kept: Vec<Row>,
}

/// The table of a text, or the first refusal in the rules' order. The room is that of the shortest
/// column.
pub fn read(text: &[u8], room: usize) -> Result<Table, Refusal<'_>> {
    if !text.is_ascii() {
        return Err(Refusal::new(1, 0));
    }
    let mut lines = lines(text);
    let first = lines.next().ok_or(Refusal::new(2, 0))?;
    if trimmed_fields(first) != HEADER {
        return Err(Refusal::new(3, 1));
    }
    let mut rows = Vec::new();
    for (line, number) in lines.zip(2..) {
        if trimmed(line).is_empty() {
            continue;
        }
        let row = read_row(line, rows.len(), room).map_err(|(refused, field)| Refusal {
            number: refused,
            row: number,
            field,
        })?;
        rows.push(row);
    }
    if rows.is_empty() {
        return Err(Refusal::new(10, 0));
    }
    let ordered = ordered(&rows);
    let kept = kept(&ordered);
    Ok(Table { ordered, kept })
}

fn trimmed_fields(line: &[u8]) -> Vec<&[u8]> {
    fields(line).into_iter().map(trimmed).collect()
}

/// The row of a line, behind so many; else the refusal's number, and the number in text where that
/// is at fault.
fn read_row(line: &[u8], before: usize, room: usize) -> Result<Row, (u8, &[u8])> {
    let fields = trimmed_fields(line);
    let [batch, drafts, seconds] = fields[..] else {
        return Err((4, &[]));
    };
    let batch = reading::whole(batch).map_err(|number| (number, batch))?;
    let drafts = reading::whole(drafts).map_err(|number| (number, drafts))?;
    let seconds = reading::decimal(seconds).map_err(|number| (number, seconds))?;
    // zero, or a sign bit that is set: no decimal is a NaN
    if seconds == 0 || seconds >> 63 == 1 {
        return Err((8, &[]));
    }
    if drafts == 0 {
        return Err((9, &[]));
    }
    if before >= MOST_ROWS {
        return Err((11, &[]));
    }
    if before >= room {
        return Err((16, &[]));
    }
    Ok(Row {
        depth: drafts as u32 - 1,
        batch: batch as u32,
        seconds,
    })
}

/// By depth, then by batch; rows of equal batch in the order of the file.
fn ordered(rows: &[Row]) -> Vec<Row> {
    let mut ordered: Vec<Row> = Vec::new();
    for &row in rows {
        let place = |other: &Row| (other.depth, other.batch) <= (row.depth, row.batch);
        let behind = ordered.iter().rposition(place);
        ordered.insert(behind.map_or(0, |place| place + 1), row);
    }
    ordered
}

/// Without the rows above 1.3 times the next of their depth.
fn kept(ordered: &[Row]) -> Vec<Row> {
    let is_dropped = |at: usize| {
        let row = ordered[at];
        let next = ordered.get(at + 1).filter(|next| next.depth == row.depth);
        next.is_some_and(|next| f64::from_bits(row.seconds) > 1.3 * f64::from_bits(next.seconds))
    };
    let stays = |&at: &usize| !is_dropped(at);
    let places = (0..ordered.len()).filter(stays);
    places.map(|at| ordered[at]).collect()
}

#[cfg(test)]
mod tests {
    use super::*;

    const FIRST: &str = " batch_size,\tnum_draft_tokens ,step_seconds\r\n";

    fn of(rows: &str) -> Result<Table, (u8, u64)> {
        let text = format!("{FIRST}{rows}");
        read(text.as_bytes(), 4).map_err(|refusal| (refusal.number, refusal.row))
    }

    fn batches(rows: &[Row]) -> Vec<(u32, u32)> {
        rows.iter().map(|row| (row.depth, row.batch)).collect()
    }

    #[test]
    fn rows_are_ordered_and_cleaned() {
        let table = of("4,1,1.0\n2,1,1.5\n1,1,1.9\n").unwrap();
        assert_eq!(batches(&table.ordered), [(0, 1), (0, 2), (0, 4)]);
        assert_eq!(batches(&table.kept), [(0, 1), (0, 4)]);
        let table = of("1,2,9\n1,1,1.3\n2,1,1\n1,1,2\n").unwrap();
        let seconds = |rows: &[Row]| -> Vec<f64> {
            rows.iter().map(|row| f64::from_bits(row.seconds)).collect()
        };
        assert_eq!(seconds(&table.ordered), [1.3, 2.0, 1.0, 9.0]);
        assert_eq!(seconds(&table.kept), [1.3, 1.0, 9.0]);
    }

    #[test]
    fn every_refusal_with_its_row() {
        assert_eq!(read(b"\xff", 0), Err(Refusal::new(1, 0)));
        assert_eq!(read(b"", 0), Err(Refusal::new(2, 0)));
        assert_eq!(
            read(b"batch_size,num_draft_tokens", 0),
            Err(Refusal::new(3, 1))
        );
        assert_eq!(of("\n \t\n1,1\n"), Err((4, 4)));
        assert_eq!(of("x,y,z\n"), Err((5, 2)));
        assert_eq!(of("1,y,z\n"), Err((5, 2)));
        assert_eq!(of("1,1,z\n"), Err((6, 2)));
        assert_eq!(of("1,1,1234567890123456\n"), Err((7, 2)));
        assert_eq!(of("1,0,-0\n"), Err((8, 2)));
        assert_eq!(of("1,0,1\n"), Err((9, 2)));
        assert_eq!(of(" \n"), Err((10, 0)));
        assert_eq!(of("1,1,1\n1,1,1\n1,1,1\n1,1,1\n\n1,1,1\n"), Err((16, 7)));
    }

    #[test]
    fn more_than_4096_rows_are_refused_before_room() {
        let text = |rows: usize| [FIRST.as_bytes(), &b"1,1,1\n".repeat(rows)].concat();
        assert_eq!(read(&text(4096), 4096).unwrap().kept.len(), 4096);
        let over = text(4097);
        assert_eq!(read(&over, 4096), Err(Refusal::new(11, 4098)));
        assert_eq!(read(&over, 4095), Err(Refusal::new(16, 4097)));
    }
}
