//! Values of ASN.1 types by CANONICAL-PER UNALIGNED and Canonical OER, by the proved library Tulvorn, which `build.rs`
//! finds or builds, and links.
//!
//! ```
//! use tulvorn::{Error, Module, Rules};
//!
//! let module = Module::read(
//!     "M DEFINITIONS AUTOMATIC TAGS ::= BEGIN
//!     Msg ::= SEQUENCE { id INTEGER (0..7), ok BOOLEAN DEFAULT TRUE, note IA5String (SIZE (0..3)) OPTIONAL }
//!     END",
//! )?;
//! let msg = module.ty("Msg")?;
//! let value = msg.decode(Rules::Per, &[0x6b, 0x04])?;
//! assert_eq!(value["id"].as_i64(), Some(5));
//! assert_eq!(value.at("note").as_text().as_deref(), Some("A"));
//! assert_eq!(value.encode(Rules::Oer)?, [0x40, 5, 1, b'A']);
//! let fault = msg.check(Rules::Per, &[0xac]).unwrap_err();
//! assert_eq!(fault.to_string(), "refused at bit 6: default");
//! # Ok::<(), Error>(())
//! ```

#![warn(missing_docs, clippy::pedantic)]

mod ffi;
mod inside;
mod session;

pub use inside::Inside;
pub use session::{Fed, Session};

pub use ffi::Budget;
use ffi::{Fault, Handle};
use std::fmt;
use std::ptr::null_mut;
use std::sync::Arc;

/// Encoding rules.
#[derive(Clone, Copy, Debug, PartialEq, Eq, Hash)]
pub enum Rules {
    /// CANONICAL-PER UNALIGNED (X.691); its unit is the bit.
    Per = 0,
    /// Canonical OER (X.696); its unit is the octet.
    Oer = 1,
}

/// The kind of a type.
#[derive(Clone, Copy, Debug, PartialEq, Eq, Hash)]
#[non_exhaustive]
pub enum Kind {
    /// BOOLEAN
    Boolean,
    /// NULL
    Null,
    /// INTEGER
    Integer,
    /// ENUMERATED
    Enumerated,
    /// BIT STRING
    BitString,
    /// OCTET STRING
    OctetString,
    /// `IA5String`, `NumericString`, `VisibleString` or `UTF8String`
    CharacterString,
    /// SEQUENCE
    Sequence,
    /// SEQUENCE OF
    SequenceOf,
    /// CHOICE
    Choice,
}

const KINDS: [Kind; 10] = [
    Kind::Boolean,
    Kind::Null,
    Kind::Integer,
    Kind::Enumerated,
    Kind::BitString,
    Kind::OctetString,
    Kind::CharacterString,
    Kind::Sequence,
    Kind::SequenceOf,
    Kind::Choice,
];

/// Why octets were refused: what was being read.
#[derive(Clone, Copy, Debug, PartialEq, Eq, Hash)]
#[non_exhaustive]
pub enum Why {
    /// The last unit of an open type field whose content is no encoding, or of a `UTF8String` that is no UTF-8.
    Sealed,
    /// The value of a component with a DEFAULT.
    Default,
    /// A length or a quantity.
    Length,
    /// An extension bit, or the count of extension additions, their presence bits or, in OER, what fills these up.
    Extension,
    /// A character of a string.
    Character,
    /// The zeros that fill an octet; of a BIT STRING in OER also how many there are.
    Padding,
    /// Anything else.
    Number,
    /// The last unit of the encoding of a value that breaks the constraint of its type.
    Constraint,
}

const WHYS: [Why; 8] = [
    Why::Sealed,
    Why::Default,
    Why::Length,
    Why::Extension,
    Why::Character,
    Why::Padding,
    Why::Number,
    Why::Constraint,
];

/// Why a call did not do what it was asked for.
#[derive(Clone, Copy, Debug, PartialEq, Eq, Hash)]
#[non_exhaustive]
pub enum Reason {
    /// An allocation failed.
    Memory,
    /// No encoding begins so: `at` is the first unit, counted from 1, after which none can follow.
    Refused {
        /// The unit: a bit of PER, an octet of OER.
        at: u64,
        /// What was being read there.
        why: Why,
    },
    /// An encoding may still follow the octets.
    Truncated {
        /// How many units were taken.
        taken: u64,
    },
    /// The first octets are an encoding, and more follow.
    Rest {
        /// How many octets the first are, by both rules.
        used: u64,
    },
    /// Of octets: the first 268,435,455 are no encoding, and only a longer one may begin so. Of a value: its encoding
    /// would have more than these. Of `read_newer`: the octets are more than these, whatever they are.
    TooLong,
    /// The octets are fewer than those to be written.
    TooShort {
        /// How many octets are wanted.
        wanted: u64,
    },
    /// The text is no module.
    NoModule {
        /// An octet of the text, counted from 0, where the fault has a place; else 0.
        at: u64,
    },
    /// The module has no type of that name.
    NoName,
    /// The value is none of the type, or breaks its constraint.
    NotOfType,
    /// The text is no JSON, or has a number past what is read, as `1e400`, half of a surrogate pair, or more than 127
    /// levels.
    NoJson,
    /// The JSON is not of the shape of the type.
    Shape,
    /// No value of the type has a part at the path.
    NoPath,
    /// The part is of another kind.
    OtherKind,
    /// No message of any version begins so, or more octets follow one.
    NoMessage,
    /// The octets end before a message of any version does.
    CutMessage,
    /// A count of extension additions, the index or tag of an alternative, or the index of an item, past those of the
    /// profile.
    TooManyAdditions,
    /// The session has given its value, or answered `Memory`, before.
    Spent,
    /// The value has no part at the path, and other values of its type have one.
    Absent,
    /// The octets are the encoding of a value that takes more than the budget.
    OverBudget,
    /// The constraint of the type has more than 1,000,000 parts, or more than 256 names that refer one to the next
    /// have one.
    LargeConstraint,
    /// The type has more levels than were asked for.
    TooDeep,
    /// The library answered a code that this crate does not know, or the crate misused it.
    Other(u32),
}

/// An error: the reason, and in words what the library says of it.
///
/// The words of a text that is no module are those of [`Module::explain`], and those of JSON that is not of the shape
/// of a type those of [`Type::explain_json`].
#[derive(Clone, PartialEq, Eq)]
pub struct Error {
    /// The reason.
    pub reason: Reason,
    fault: (u32, u32, u64),
    // the rules in whose unit the place is counted
    rules: Rules,
    // the words that the library gives with the text alone
    words: Option<Arc<str>>,
}

impl Error {
    fn of(fault: Fault, rules: Rules) -> Error {
        let at = fault.at;
        let reason = match fault.code {
            1 => Reason::Memory,
            3 => match (fault.why as usize).checked_sub(1).and_then(|index| WHYS.get(index)) {
                Some(&why) => Reason::Refused { at, why },
                None => Reason::Other(3),
            },
            4 => Reason::Truncated { taken: at },
            5 => Reason::Rest { used: at },
            6 => Reason::TooLong,
            7 => Reason::TooShort { wanted: at },
            9 => Reason::NoModule { at },
            10 => Reason::NoName,
            11 => Reason::NotOfType,
            12 => Reason::NoJson,
            13 => Reason::Shape,
            14 => Reason::NoPath,
            15 => Reason::OtherKind,
            16 => Reason::NoMessage,
            17 => Reason::CutMessage,
            18 => Reason::TooManyAdditions,
            20 => Reason::Spent,
            21 => Reason::Absent,
            22 => Reason::OverBudget,
            23 => Reason::LargeConstraint,
            24 => Reason::TooDeep,
            code => Reason::Other(code),
        };
        Error { reason, fault: (fault.code, fault.why, fault.at), rules, words: None }
    }
}

impl fmt::Display for Error {
    fn fmt(&self, f: &mut fmt::Formatter<'_>) -> fmt::Result {
        if let Some(words) = &self.words {
            return f.write_str(words.trim_end());
        }
        let (code, why, at) = self.fault;
        let (fault, mut words) = (Fault { code, why, at }, Held::nothing());
        // SAFETY: `fault` and `words` are places of this function alone.
        let code = unsafe { ffi::tulvorn_words(&raw const fault, self.rules as u32, words.fill()) };
        if code == 0 { f.write_str(&String::from_utf8_lossy(&words.octets())) } else { f.write_str("memory") }
    }
}

// (a program whose `main` returns an error prints it so)
impl fmt::Debug for Error {
    fn fmt(&self, f: &mut fmt::Formatter<'_>) -> fmt::Result {
        write!(f, "{:?}: {self}", self.reason)
    }
}

impl std::error::Error for Error {}

// A handle, which closes itself.
struct Held(Handle);

// SAFETY: the library proves `Send` of its handle.
unsafe impl Send for Held {}

// SAFETY: the library proves `Sync` of a handle that calls only read, and `&Held` gives no other access.
unsafe impl Sync for Held {}

impl Held {
    fn nothing() -> Held {
        Held(Handle::NONE)
    }

    // for the calls that only read
    fn get(&self) -> *const Handle {
        &raw const self.0
    }

    // for the calls that fill the handle, or take a piece into its session
    fn fill(&mut self) -> *mut Handle {
        &raw mut self.0
    }

    // What `call` writes, where it says how much that is.
    fn written(mut call: impl FnMut(*mut u8, usize, *mut usize) -> u32) -> Result<Vec<u8>, u32> {
        let mut needed = 0;
        match call(null_mut(), 0, &raw mut needed) {
            0 => return Ok(Vec::new()),
            7 => {}
            code => return Err(code),
        }
        let mut room = vec![0; needed];
        match call(room.as_mut_ptr(), room.len(), &raw mut needed) {
            0 => Ok(room),
            code => Err(code),
        }
    }

    // The skipped fields that it holds.
    fn fields(&self) -> Vec<Skipped> {
        let mut count = 0;
        // SAFETY: the handle is this object's.
        unsafe { ffi::tulvorn_skipped_count(self.get(), &raw mut count) };
        (0..count)
            .map(|index| {
                let mut place = 0;
                let octets = Held::written(|into, room, needed| {
                    // SAFETY: as above, and the room is that of a vector.
                    unsafe { ffi::tulvorn_skipped(self.get(), index, &raw mut place, into, room, needed) }
                });
                Skipped { place, octets: octets.unwrap_or_default() }
            })
            .collect()
    }

    // The words that it holds, if there are any.
    fn words(&self) -> Option<String> {
        let words = String::from_utf8_lossy(&self.octets()).into_owned();
        (!words.is_empty()).then_some(words)
    }

    fn octets(&self) -> Vec<u8> {
        // SAFETY: the handle is this object's, and the room is that of a vector.
        Held::written(|into, room, needed| unsafe { ffi::tulvorn_copy(self.get(), into, room, needed) })
            .unwrap_or_default()
    }
}

impl Drop for Held {
    fn drop(&mut self) {
        // SAFETY: the handle is this object's.
        unsafe { ffi::tulvorn_close(self.fill()) }
    }
}

fn look(code: u32, fault: Fault, rules: Rules) -> Result<(), Error> {
    if code == 0 { Ok(()) } else { Err(Error::of(fault, rules)) }
}

/// A module that was read.
pub struct Module(Held);

impl Module {
    /// Reads the text of a module.
    ///
    /// # Errors
    /// `NoModule` if the text is no module of the profile, with the words of `explain`; `Memory`.
    ///
    /// ```
    /// let error = tulvorn::Module::read("M DEFINITIONS AUTOMATIC TAGS ::= BEGIN T ::= U END").err().unwrap();
    /// assert!(error.to_string().contains("line 1, column 46"), "{error}");
    /// ```
    pub fn read(text: &str) -> Result<Module, Error> {
        let (mut held, mut fault) = (Held::nothing(), Fault::default());
        // SAFETY: the pointer and the length are those of one text, and the handle holds nothing.
        let code = unsafe { ffi::tulvorn_module(text.as_ptr(), text.len(), held.fill(), &raw mut fault) };
        match look(code, fault, Rules::Per) {
            Ok(()) => Ok(Module(held)),
            Err(error) if matches!(error.reason, Reason::NoModule { .. }) => {
                Err(Error { words: Module::explain(text)?.map(Arc::from), ..error })
            }
            Err(error) => Err(error),
        }
    }

    /// Why a text is no module, with the line and a mark where that shows; None where it is one.
    ///
    /// # Errors
    /// `Memory`.
    ///
    /// ```
    /// let text = "M DEFINITIONS AUTOMATIC TAGS ::= BEGIN T ::= U END";
    /// let words = tulvorn::Module::explain(text)?.unwrap();
    /// assert!(words.contains("line 1, column 46"), "{words}");
    /// # Ok::<(), tulvorn::Error>(())
    /// ```
    pub fn explain(text: &str) -> Result<Option<String>, Error> {
        let mut held = Held::nothing();
        // SAFETY: as in `read`.
        let code = unsafe { ffi::tulvorn_explain_module(text.as_ptr(), text.len(), held.fill()) };
        look(code, Fault { code, why: 0, at: 0 }, Rules::Per)?;
        Ok(held.words())
    }

    /// The type that the module assigns to a name. It outlives the module.
    ///
    /// # Errors
    /// `NoName`, `LargeConstraint`, `Memory`.
    pub fn ty(&self, name: &str) -> Result<Type, Error> {
        let (mut held, mut fault) = (Held::nothing(), Fault::default());
        // SAFETY: as in `read`; the two handles are two objects'.
        let code =
            unsafe { ffi::tulvorn_type(self.0.get(), name.as_ptr(), name.len(), held.fill(), &raw mut fault) };
        look(code, fault, Rules::Per)?;
        Ok(Type(held))
    }

    /// How the type that the module assigns to a name differs from the published type, as the text of the module says;
    /// None where it says nothing. Its messages are then others than those of the published type.
    ///
    /// # Errors
    /// `NoName`, `Memory`.
    ///
    /// ```
    /// let module = tulvorn::Module::read(
    ///     "M DEFINITIONS AUTOMATIC TAGS ::= BEGIN\nT ::= OCTET STRING\n--! T wider: a constraint is not looked at\nEND",
    /// )?;
    /// assert_eq!(module.difference("T")?.as_deref(), Some("wider: a constraint is not looked at"));
    /// # Ok::<(), tulvorn::Error>(())
    /// ```
    pub fn difference(&self, name: &str) -> Result<Option<String>, Error> {
        let mut held = Held::nothing();
        // SAFETY: as in `read`; the two handles are two objects'.
        let code = unsafe { ffi::tulvorn_difference(self.0.get(), name.as_ptr(), name.len(), held.fill()) };
        look(code, Fault { code, why: 0, at: 0 }, Rules::Per)?;
        Ok(held.words())
    }

    /// The type that the module assigns to a name, if it has at most so many levels. What each call on it takes of the
    /// stack grows with them.
    ///
    /// # Errors
    /// `NoName`, `TooDeep`, `LargeConstraint`, `Memory`.
    pub fn ty_of_levels(&self, name: &str, levels: u32) -> Result<Type, Error> {
        let (mut held, mut fault) = (Held::nothing(), Fault::default());
        let (octets, len) = (name.as_ptr(), name.len());
        // SAFETY: as in `read`; the two handles are two objects'.
        let code = unsafe {
            ffi::tulvorn_type_levels(self.0.get(), octets, len, levels, held.fill(), &raw mut fault)
        };
        look(code, fault, Rules::Per)?;
        Ok(Type(held))
    }
}

/// A type of a module. Threads may use one at once.
pub struct Type(Held);

impl Type {
    /// Another of the same type, which is dropped on its own. Both share one tree.
    ///
    /// # Errors
    /// `Memory`.
    pub fn share(&self) -> Result<Type, Error> {
        let mut held = Held::nothing();
        // SAFETY: the two handles are two objects'.
        let code = unsafe { ffi::tulvorn_share(self.0.get(), held.fill()) };
        look(code, Fault { code, why: 0, at: 0 }, Rules::Per)?;
        Ok(Type(held))
    }

    /// Whether the octets are the encoding of a value of the type.
    ///
    /// # Errors
    /// `Refused`, `Truncated`, `Rest`, `TooLong`, `Memory`.
    pub fn check(&self, rules: Rules, octets: &[u8]) -> Result<(), Error> {
        let mut fault = Fault::default();
        // SAFETY: the pointer and the length are those of one slice, and the handle is this object's.
        let code = unsafe {
            ffi::tulvorn_check(self.0.get(), rules as u32, octets.as_ptr(), octets.len(), &raw mut fault)
        };
        look(code, fault, rules)
    }

    /// The value whose encoding the octets are.
    ///
    /// # Errors
    /// As `check`.
    pub fn decode(&self, rules: Rules, octets: &[u8]) -> Result<Value, Error> {
        let (mut held, mut fault) = (Held::nothing(), Fault::default());
        // SAFETY: as in `check`; the two handles are two objects'.
        let code = unsafe {
            ffi::tulvorn_decode(
                self.0.get(),
                rules as u32,
                octets.as_ptr(),
                octets.len(),
                held.fill(),
                &raw mut fault,
            )
        };
        look(code, fault, rules)?;
        Ok(Value::of(held))
    }

    /// Whether the octets are the encoding of a value of the type that takes no more than the budget.
    ///
    /// # Errors
    /// As `check`, and `OverBudget`.
    pub fn check_within(&self, rules: Rules, octets: &[u8], budget: Budget) -> Result<(), Error> {
        let mut fault = Fault::default();
        // SAFETY: as in `check`.
        let code = unsafe {
            ffi::tulvorn_check_within(
                self.0.get(),
                rules as u32,
                octets.as_ptr(),
                octets.len(),
                &raw const budget,
                &raw mut fault,
            )
        };
        look(code, fault, rules)
    }

    /// The value whose encoding the octets are, if it takes no more than the budget.
    ///
    /// # Errors
    /// As `check`, and `OverBudget`.
    ///
    /// ```
    /// use tulvorn::{Budget, Module, Reason, Rules};
    ///
    /// let module = Module::read("M DEFINITIONS AUTOMATIC TAGS ::= BEGIN T ::= SEQUENCE OF BOOLEAN END")?;
    /// let ty = module.ty("T")?;
    /// // three elements and the list itself are four entries
    /// let budget = Budget { entries: 4, octets: 0 };
    /// assert!(ty.decode_within(Rules::Oer, &[1, 3, 0, 0, 0], budget).is_ok());
    /// let error = ty.decode_within(Rules::Oer, &[1, 4, 0, 0, 0, 0], budget).err().unwrap();
    /// assert_eq!(error.reason, Reason::OverBudget);
    /// # Ok::<(), tulvorn::Error>(())
    /// ```
    pub fn decode_within(&self, rules: Rules, octets: &[u8], budget: Budget) -> Result<Value, Error> {
        let (mut held, mut fault) = (Held::nothing(), Fault::default());
        // SAFETY: as in `decode`.
        let code = unsafe {
            ffi::tulvorn_decode_within(
                self.0.get(),
                rules as u32,
                octets.as_ptr(),
                octets.len(),
                &raw const budget,
                held.fill(),
                &raw mut fault,
            )
        };
        look(code, fault, rules)?;
        Ok(Value::of(held))
    }

    /// The octets by the other rules of the value whose encoding by these rules the octets are.
    ///
    /// # Errors
    /// As `check`.
    pub fn convert(&self, rules: Rules, octets: &[u8]) -> Result<Vec<u8>, Error> {
        let (mut held, mut fault) = (Held::nothing(), Fault::default());
        // SAFETY: as in `decode`.
        let code = unsafe {
            ffi::tulvorn_convert(
                self.0.get(),
                rules as u32,
                octets.as_ptr(),
                octets.len(),
                held.fill(),
                &raw mut fault,
            )
        };
        look(code, fault, rules)?;
        Ok(held.octets())
    }

    /// Why the octets are no encoding of a value of the type, with the component in which that shows, as
    /// `refused at bit 6 in $.ok: default`; None where they are one.
    ///
    /// # Errors
    /// `Memory`.
    pub fn explain(&self, rules: Rules, octets: &[u8]) -> Result<Option<String>, Error> {
        let mut held = Held::nothing();
        // SAFETY: as in `decode`.
        let code = unsafe {
            ffi::tulvorn_explain(self.0.get(), rules as u32, octets.as_ptr(), octets.len(), held.fill())
        };
        look(code, Fault { code, why: 0, at: 0 }, rules)?;
        Ok(held.words())
    }

    /// Why the JSON shows no value of the type, as `not of the type's shape at $.ok`; None where it shows one.
    ///
    /// # Errors
    /// `NoJson`, `Memory`.
    pub fn explain_json(&self, json: &str) -> Result<Option<String>, Error> {
        let mut held = Held::nothing();
        // SAFETY: as in `decode`.
        let code = unsafe { ffi::tulvorn_explain_json(self.0.get(), json.as_ptr(), json.len(), held.fill()) };
        look(code, Fault { code, why: 0, at: 0 }, Rules::Per)?;
        Ok(held.words())
    }

    /// The first part of a value, also of another type, that does not fit this type, and why, as
    /// `$.id: 5 is not in 0..3`; None where it fits.
    ///
    /// # Errors
    /// `Memory`.
    pub fn misfit(&self, value: &Value) -> Result<Option<String>, Error> {
        let mut held = Held::nothing();
        // SAFETY: the three handles are three objects'.
        let code = unsafe { ffi::tulvorn_misfit(self.0.get(), value.0.get(), held.fill()) };
        look(code, Fault { code, why: 0, at: 0 }, Rules::Per)?;
        Ok(held.words())
    }

    /// What a receiver of this type reads of a message whose sender's type has more or fewer extension additions.
    ///
    /// # Errors
    /// `NoMessage`, `CutMessage`, `TooManyAdditions`, `TooLong`, `Memory`.
    pub fn read_newer(&self, rules: Rules, octets: &[u8]) -> Result<Newer, Error> {
        let (mut value, mut fields, mut fault) = (Held::nothing(), Held::nothing(), Fault::default());
        // SAFETY: as in `decode`; the three handles are three objects'.
        let code = unsafe {
            ffi::tulvorn_read_newer(
                self.0.get(),
                rules as u32,
                octets.as_ptr(),
                octets.len(),
                value.fill(),
                fields.fill(),
                &raw mut fault,
            )
        };
        look(code, fault, rules)?;
        Ok(Newer { value: Value::of(value), skipped: fields.fields() })
    }

    /// The value of the type that the JSON shows. An INTEGER is shown by a number without fraction and exponent, from
    /// -2^63 to 2^64 - 1; any other number, `-0` too, is not of its `Shape`. An object with a key twice is not of its `Shape`.
    ///
    /// # Errors
    /// `NoJson`, `Shape`, `NotOfType`, `Memory`.
    pub fn read_json(&self, json: &str) -> Result<Value, Error> {
        let (mut held, mut fault) = (Held::nothing(), Fault::default());
        // SAFETY: as in `decode`.
        let code = unsafe {
            ffi::tulvorn_from_json(self.0.get(), json.as_ptr(), json.len(), held.fill(), &raw mut fault)
        };
        match look(code, fault, Rules::Per) {
            Ok(()) => Ok(Value::of(held)),
            Err(error) if error.reason == Reason::Shape => {
                Err(Error { words: self.explain_json(json)?.map(Arc::from), ..error })
            }
            Err(error) => Err(error),
        }
    }
}

/// A field of a message that the receiver's type has not.
#[derive(Clone, Debug, PartialEq, Eq)]
pub struct Skipped {
    /// Its index among the extension additions of its type, from 0; those that the receiver's type has count too.
    pub place: u32,
    /// Its octets.
    pub octets: Vec<u8>,
}

/// What is read of a message of a newer or older sender.
pub struct Newer {
    /// The value, with the entries and alternatives that the type has. With an item or alternative that the type has
    /// not it has JSON and no encoding: JSON shows of an item `"?2"`, by PER its index among the additions, from 0, and
    /// by OER its number, and of an alternative `{"?1":null}`, its index, root before additions, from 0.
    pub value: Value,
    /// The fields that the type has not, in the order of the message.
    pub skipped: Vec<Skipped>,
}

/// A value with its type. Threads may read one at once.
pub struct Value(Arc<Held>, inside::Parts);

impl Value {
    fn of(held: Held) -> Value {
        Value(Arc::new(held), inside::Parts::default())
    }

    /// The encoding of the value.
    ///
    /// # Errors
    /// `NotOfType`, `TooLong`, `Memory`.
    pub fn encode(&self, rules: Rules) -> Result<Vec<u8>, Error> {
        let (mut held, mut fault) = (Held::nothing(), Fault::default());
        // SAFETY: the two handles are two objects'.
        let code = unsafe { ffi::tulvorn_encode(self.0.get(), rules as u32, held.fill(), &raw mut fault) };
        look(code, fault, rules)?;
        Ok(held.octets())
    }

    /// How many octets the encoding has. Takes no memory.
    ///
    /// # Errors
    /// `NotOfType`, `TooLong`.
    pub fn encoded_len(&self, rules: Rules) -> Result<usize, Error> {
        let (mut len, mut fault) = (0, Fault::default());
        // SAFETY: the handle is this object's.
        let code = unsafe { ffi::tulvorn_encoded_len(self.0.get(), rules as u32, &raw mut len, &raw mut fault) };
        look(code, fault, rules)?;
        Ok(len)
    }

    /// Puts the encoding into the first of these octets, and gives how many it has. Takes no memory.
    ///
    /// # Errors
    /// `NotOfType`, `TooLong`, and `TooShort`, with which the octets are as they were.
    pub fn encode_into(&self, rules: Rules, octets: &mut [u8]) -> Result<usize, Error> {
        let (mut len, mut fault) = (0, Fault::default());
        // SAFETY: the pointer and the length are those of one slice.
        let code = unsafe {
            ffi::tulvorn_encode_into(
                self.0.get(),
                rules as u32,
                octets.as_mut_ptr(),
                octets.len(),
                &raw mut len,
                &raw mut fault,
            )
        };
        look(code, fault, rules)?;
        Ok(len)
    }

    /// The text of the JSON of the value.
    ///
    /// # Errors
    /// `Memory`.
    pub fn to_json(&self) -> Result<String, Error> {
        let (mut held, mut fault) = (Held::nothing(), Fault::default());
        // SAFETY: the two handles are two objects'.
        let code = unsafe { ffi::tulvorn_to_json(self.0.get(), held.fill(), &raw mut fault) };
        look(code, fault, Rules::Per)?;
        Ok(String::from_utf8_lossy(&held.octets()).into_owned())
    }

    /// The part at a path, as `coreData.speed` or `path[3].x`. Its calls return None if there is no such
    /// part, or it is of another kind. A `$` at the very front is ignored. The path is cut at each `.`, `[` and `]`. An
    /// empty piece is ignored. One of at most nine digits is the index of an element, counted from 0. Any other is the
    /// name of a component or of the chosen alternative. An absent component is its DEFAULT.
    #[must_use]
    pub fn at<'a>(&'a self, path: &'a str) -> Part<'a> {
        Part { held: &self.0, path }
    }
}

/// A part of a value.
#[derive(Clone, Copy)]
pub struct Part<'a> {
    held: &'a Held,
    path: &'a str,
}

type Read<T> = unsafe extern "C" fn(*const Handle, *const u8, usize, *mut T) -> u32;

type Written = unsafe extern "C" fn(*const Handle, *const u8, usize, *mut u8, usize, *mut usize) -> u32;

impl Part<'_> {
    fn read<T: Default>(self, call: Read<T>) -> Option<T> {
        let mut part = T::default();
        // SAFETY: the handle is the value's, and the path a text.
        let code = unsafe { call(self.held.get(), self.path.as_ptr(), self.path.len(), &raw mut part) };
        (code == 0).then_some(part)
    }

    fn written(self, call: Written) -> Option<Vec<u8>> {
        Held::written(|into, room, needed| {
            // SAFETY: as in `read`, and the room is that of a vector.
            unsafe { call(self.held.get(), self.path.as_ptr(), self.path.len(), into, room, needed) }
        })
        .ok()
    }

    /// Whether the value has the part: false for an absent component without a DEFAULT, an alternative that is not
    /// chosen, and an element past the end.
    ///
    /// # Errors
    /// `NoPath` if no value of the type has such a part, as with a misspelt name.
    ///
    /// ```
    /// let module = tulvorn::Module::read(
    ///     "M DEFINITIONS AUTOMATIC TAGS ::= BEGIN T ::= SEQUENCE { speed INTEGER OPTIONAL } END",
    /// )?;
    /// let value = module.ty("T")?.read_json("{}")?;
    /// assert_eq!(value.at("speed").is_present(), Ok(false));
    /// assert_eq!(value.at("sped").is_present().unwrap_err().reason, tulvorn::Reason::NoPath);
    /// # Ok::<(), tulvorn::Error>(())
    /// ```
    pub fn is_present(self) -> Result<bool, Error> {
        let mut kind = 0;
        // SAFETY: as in `read`.
        let code = unsafe {
            ffi::tulvorn_kind(self.held.get(), self.path.as_ptr(), self.path.len(), &raw mut kind)
        };
        if code == 21 {
            return Ok(false);
        }
        look(code, Fault { code, why: 0, at: 0 }, Rules::Per)?;
        Ok(true)
    }

    /// The kind of the part's type; None where there is no such part.
    #[must_use]
    pub fn kind(self) -> Option<Kind> {
        KINDS.get((self.read(ffi::tulvorn_kind)? as usize).checked_sub(1)?).copied()
    }

    /// The value of an INTEGER; None too of one above `i64::MAX`.
    #[must_use]
    pub fn as_i64(self) -> Option<i64> {
        self.read(ffi::tulvorn_integer)
    }

    /// The value of an INTEGER; None too of one below 0.
    #[must_use]
    pub fn as_u64(self) -> Option<u64> {
        self.read(ffi::tulvorn_unsigned)
    }

    /// The value of an INTEGER.
    #[must_use]
    pub fn as_i128(self) -> Option<i128> {
        self.as_i64().map(i128::from).or_else(|| self.as_u64().map(i128::from))
    }

    /// The value of a BOOLEAN.
    #[must_use]
    pub fn as_bool(self) -> Option<bool> {
        self.read(ffi::tulvorn_boolean).map(|truth| truth != 0)
    }

    /// How many elements a SEQUENCE OF has, or bits, octets or characters a string.
    #[must_use]
    pub fn count(self) -> Option<usize> {
        self.read(ffi::tulvorn_count)
    }

    /// The octets of an OCTET STRING.
    #[must_use]
    pub fn as_octets(self) -> Option<Vec<u8>> {
        self.written(ffi::tulvorn_octets)
    }

    /// The text of a character string.
    #[must_use]
    pub fn as_text(self) -> Option<String> {
        String::from_utf8(self.written(ffi::tulvorn_text)?).ok()
    }

    /// The name of the item of an ENUMERATED, or of the chosen alternative of a CHOICE; None too of one that the type
    /// has not, in a value of `read_newer`, whose number JSON shows.
    #[must_use]
    pub fn name(self) -> Option<String> {
        String::from_utf8(self.written(ffi::tulvorn_name)?).ok()
    }

    /// The bits of a BIT STRING.
    #[must_use]
    pub fn as_bits(self) -> Option<Vec<bool>> {
        if self.kind()? != Kind::BitString {
            return None;
        }
        (0..self.count()?)
            .map(|index| {
                let mut bit = 0;
                // SAFETY: as in `read`.
                let code = unsafe {
                    ffi::tulvorn_bit(
                        self.held.get(),
                        self.path.as_ptr(),
                        self.path.len(),
                        index,
                        &raw mut bit,
                    )
                };
                (code == 0).then_some(bit != 0)
            })
            .collect()
    }
}

/// The version of the library; it ends with `not proved` where it was built without a proof.
#[must_use]
pub fn version() -> String {
    // SAFETY: the room is that of a vector.
    let octets = Held::written(|into, room, needed| unsafe { ffi::tulvorn_version(into, room, needed) });
    String::from_utf8_lossy(&octets.unwrap_or_default()).into_owned()
}

/// The number of the header that the library was built with.
#[must_use]
pub fn interface() -> u32 {
    // SAFETY: it takes nothing.
    unsafe { ffi::tulvorn_interface() }
}
