//! Which calls of a case are made.
use std::collections::BTreeSet;

/// All of them, or those at these places, from 0.
#[derive(Clone, Debug, PartialEq, Eq)]
pub enum Kept {
    All,
    These(BTreeSet<usize>),
}

impl Kept {
    /// The places between commas.
    pub fn these(places: &str) -> Result<Kept, String> {
        let places = places.split(',').filter(|place| !place.is_empty());
        let places = places.map(|place| place.parse().map_err(|_| format!("no place: {place}")));
        Ok(Kept::These(places.collect::<Result<_, _>>()?))
    }

    pub fn has(&self, place: usize) -> bool {
        match self {
            Kept::All => true,
            Kept::These(places) => places.contains(&place),
        }
    }
}

#[cfg(test)]
mod tests {
    use super::*;

    #[test]
    fn the_places_stand_between_commas() {
        let kept = Kept::these("0,3").unwrap();
        assert_eq!(
            [0, 1, 2, 3].map(|place| kept.has(place)),
            [true, false, false, true]
        );
        assert_eq!(Kept::these(""), Ok(Kept::These(BTreeSet::new())));
        assert_eq!(Kept::these("1,x"), Err("no place: x".to_string()));
        assert!(Kept::All.has(7));
    }
}
