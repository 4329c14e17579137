//! Parts of a value by `[]`.

use crate::{Held, Kind, Part, Value};
use std::collections::HashMap;
use std::ops::Index;
use std::sync::{Arc, Mutex, PoisonError};

/// A part of a value, as `value["coreData"]["speed"]` or `value["path"][3]` gives it.
///
/// It is there for each name and index. Its calls are those of [`Part`]: they return None if the value has no such
/// part, or it is of another kind. The value keeps what leads to each part that was asked for so, as long as it
/// lives; `value.at("path[3].x")` keeps nothing.
///
/// ```
/// use tulvorn::{Error, Module, Rules};
///
/// let module = Module::read(
///     "M DEFINITIONS AUTOMATIC TAGS ::= BEGIN
///     Track ::= SEQUENCE { id INTEGER, path SEQUENCE OF SEQUENCE { x INTEGER } } END",
/// )?;
/// let track = module.ty("Track")?.read_json(r#"{"id":7,"path":[{"x":1},{"x":-1}]}"#)?;
/// assert_eq!(track["id"].as_i64(), Some(7));
/// assert_eq!(track["path"][1]["x"].as_i64(), Some(-1));
/// assert_eq!(track["path"][2]["x"].as_i64(), None);
/// # Ok::<(), Error>(())
/// ```
pub struct Inside {
    held: Arc<Held>,
    path: String,
    parts: Parts,
}

// The parts that were asked for, by the words that lead to them.
#[derive(Default)]
pub(crate) struct Parts(Mutex<HashMap<String, Arc<Inside>>>);

impl Parts {
    fn at(&self, held: &Arc<Held>, path: &str, word: &str) -> &Inside {
        let mut parts = self.0.lock().unwrap_or_else(PoisonError::into_inner);
        let part = parts.entry(word.to_owned()).or_insert_with(|| {
            Arc::new(Inside { held: Arc::clone(held), path: format!("{path}{word}"), parts: Parts::default() })
        });
        // SAFETY: a part stays where it is while the map has it, and nothing is taken out of the map before it is let
        // go of with `self`, which the reference does not outlive.
        unsafe { &*Arc::as_ptr(part) }
    }
}

// (an empty piece of a path stays where it is, so that a path may begin with a dot)
impl Index<&str> for Value {
    type Output = Inside;

    fn index(&self, name: &str) -> &Inside {
        self.1.at(&self.0, "", &format!(".{name}"))
    }
}

impl Index<usize> for Value {
    type Output = Inside;

    fn index(&self, index: usize) -> &Inside {
        self.1.at(&self.0, "", &format!("[{index}]"))
    }
}

impl Index<&str> for Inside {
    type Output = Inside;

    fn index(&self, name: &str) -> &Inside {
        self.parts.at(&self.held, &self.path, &format!(".{name}"))
    }
}

impl Index<usize> for Inside {
    type Output = Inside;

    fn index(&self, index: usize) -> &Inside {
        self.parts.at(&self.held, &self.path, &format!("[{index}]"))
    }
}

impl Inside {
    /// The same part, by its path.
    #[must_use]
    pub fn part(&self) -> Part<'_> {
        Part { held: &self.held, path: &self.path }
    }

    /// The kind of the part's type; None where there is no such part.
    #[must_use]
    pub fn kind(&self) -> Option<Kind> {
        self.part().kind()
    }

    /// The value of an INTEGER; None too of one above `i64::MAX`.
    #[must_use]
    pub fn as_i64(&self) -> Option<i64> {
        self.part().as_i64()
    }

    /// The value of an INTEGER; None too of one below 0.
    #[must_use]
    pub fn as_u64(&self) -> Option<u64> {
        self.part().as_u64()
    }

    /// The value of an INTEGER.
    #[must_use]
    pub fn as_i128(&self) -> Option<i128> {
        self.part().as_i128()
    }

    /// The value of a BOOLEAN.
    #[must_use]
    pub fn as_bool(&self) -> Option<bool> {
        self.part().as_bool()
    }

    /// How many elements a SEQUENCE OF has, or bits, octets or characters a string.
    #[must_use]
    pub fn count(&self) -> Option<usize> {
        self.part().count()
    }

    /// The octets of an OCTET STRING.
    #[must_use]
    pub fn as_octets(&self) -> Option<Vec<u8>> {
        self.part().as_octets()
    }

    /// The text of a character string.
    #[must_use]
    pub fn as_text(&self) -> Option<String> {
        self.part().as_text()
    }

    /// The name of the item of an ENUMERATED, or of the chosen alternative of a CHOICE.
    #[must_use]
    pub fn name(&self) -> Option<String> {
        self.part().name()
    }

    /// The bits of a BIT STRING.
    #[must_use]
    pub fn as_bits(&self) -> Option<Vec<bool>> {
        self.part().as_bits()
    }
}
