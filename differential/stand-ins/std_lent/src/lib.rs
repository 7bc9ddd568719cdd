//! What the unchanged files call `std`: the real one, but for two names. `collections::BinaryHeap`
//! counts its pops, and `fs::read_to_string` also knows texts that the test lends. The oracle says
//! `extern crate std_lent as std;`, so that a path `std::..` in the files comes here.
pub use ::std::*;

pub mod collections {
    use ::std::cell::Cell;
    pub use ::std::collections::*;

    ::std::thread_local! {
        static POPS: Cell<u64> = const { Cell::new(0) };
    }

    /// Pops that gave an element since the last call: the rules' "slots weighed".
    pub fn take_pops() -> u64 {
        POPS.replace(0)
    }

    /// The real heap, with what the files use of it: collecting, `push` and `pop`.
    pub struct BinaryHeap<T>(::std::collections::BinaryHeap<T>);

    impl<T: Ord> BinaryHeap<T> {
        pub fn push(&mut self, element: T) {
            self.0.push(element)
        }

        pub fn pop(&mut self) -> Option<T> {
            let element = self.0.pop();
            if cfg!(not(feature = "uncounted")) && element.is_some() {
                POPS.set(POPS.get() + 1);
            }
            element
        }
    }

    impl<T: Ord> FromIterator<T> for BinaryHeap<T> {
        fn from_iter<I: IntoIterator<Item = T>>(elements: I) -> Self {
            BinaryHeap(elements.into_iter().collect())
        }
    }
}

pub mod fs {
    use ::std::cell::RefCell;
    use ::std::collections::HashMap;
    pub use ::std::fs::*;

    ::std::thread_local! {
        static TEXTS: RefCell<HashMap<String, String>> = RefCell::new(HashMap::new());
        static GIVEN: RefCell<Option<String>> = const { RefCell::new(None) };
    }

    /// Gives this thread's next reader of any name this text itself, so that no copy of it is timed.
    pub fn give_text(text: String) {
        GIVEN.set(Some(text));
    }

    /// Lends this thread a text under a name; no file is made.
    pub fn lend_text(name: &str, text: &str) {
        TEXTS.with_borrow_mut(|texts| texts.insert(name.to_string(), text.to_string()));
    }

    /// The text that was given, else the text lent under this name, else the file's.
    pub fn read_to_string(path: &str) -> ::std::io::Result<String> {
        if let Some(text) = GIVEN.take() {
            return Ok(text);
        }
        match TEXTS.with_borrow(|texts| texts.get(path).cloned()) {
            Some(text) => Ok(text),
            None => ::std::fs::read_to_string(path),
        }
    }
}
