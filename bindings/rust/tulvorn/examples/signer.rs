//! What a signer asks before it signs: whether the octets are the one encoding of a value. Octets that say the same in
//! another way are refused, so that a signature cannot be moved from one list of octets to another.
//!
//! usage: signer MODULE TYPE HEXADECIMAL..

use std::error::Error;
use std::{env, fs};
use tulvorn::{Module, Rules, Type};

/// The octets that a text in hexadecimal stands for.
fn octets_of(text: &str) -> Result<Vec<u8>, Box<dyn Error>> {
    if !text.is_ascii() || text.len() % 2 != 0 {
        return Err("no hexadecimal".into());
    }
    (0..text.len()).step_by(2).map(|at| Ok(u8::from_str_radix(&text[at..at + 2], 16)?)).collect()
}

/// The line for the log: the value that is signed, or why nothing is.
fn verdict(ty: &Type, octets: &[u8]) -> Result<String, tulvorn::Error> {
    match ty.decode(Rules::Oer, octets) {
        Ok(value) => Ok(format!("sign {}", value.to_json()?)),
        Err(fault) => Ok(format!("do not sign: {fault}")),
    }
}

fn main() -> Result<(), Box<dyn Error>> {
    let words: Vec<String> = env::args().skip(1).collect();
    let [file, name, messages @ ..] = words.as_slice() else {
        return Err("usage: signer MODULE TYPE HEXADECIMAL..".into());
    };
    let ty = Module::read(&fs::read_to_string(file)?)?.ty(name)?;
    for message in messages {
        println!("{}", verdict(&ty, &octets_of(message)?)?);
    }
    Ok(())
}
