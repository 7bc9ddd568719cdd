//! Shapes of what was run: which of a few traits a case has, and how often each mixture of them was met.
use std::collections::BTreeMap;
use std::fmt::{self, Display};

/// The name of a case that has none of the traits.
const PLAIN: &str = "plain";

/// The names of the traits that a case has.
pub fn shape_of(traits: &[(&str, bool)]) -> String {
    let names = traits.iter().filter(|(_, has)| *has).map(|(name, _)| *name);
    let names: Vec<&str> = names.collect();
    match names[..] {
        [] => PLAIN.to_string(),
        _ => names.join(" "),
    }
}

/// How often each shape was met.
#[derive(Clone, Debug, Default, PartialEq, Eq, Hash)]
pub struct Shapes(BTreeMap<String, u64>);

impl Shapes {
    pub fn count(&mut self, shape: String) {
        *self.0.entry(shape).or_default() += 1;
    }

    pub fn add(&mut self, more: &Shapes) {
        for (shape, n) in &more.0 {
            *self.0.entry(shape.clone()).or_default() += n;
        }
    }

    pub fn is_empty(&self) -> bool {
        self.0.is_empty()
    }
}

/// `shapes: deep 3, deep uneven 1, plain 7`
impl Display for Shapes {
    fn fmt(&self, f: &mut fmt::Formatter<'_>) -> fmt::Result {
        let each = self.0.iter().map(|(shape, n)| format!("{shape} {n}"));
        write!(f, "shapes: {}", each.collect::<Vec<_>>().join(", "))
    }
}

#[cfg(test)]
mod tests {
    use super::*;

    #[test]
    fn a_shape_is_the_traits_that_are_there() {
        let traits = |deep, uneven| shape_of(&[("deep", deep), ("uneven", uneven)]);
        assert_eq!(traits(false, false), "plain");
        assert_eq!(traits(true, true), "deep uneven");
        let mut shapes = Shapes::default();
        shapes.count(traits(true, false));
        shapes.count(traits(false, false));
        let more = shapes.clone();
        shapes.add(&more);
        assert_eq!(shapes.to_string(), "shapes: deep 2, plain 2");
    }
}
