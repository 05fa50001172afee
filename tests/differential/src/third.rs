//! A third answer for every wrapping and unwrapping, that of OpenSSL, where both rules speak: OpenSSL knows no limit of
//! 240 octets, no other key length under this name, and no room.

use crate::case::Case;
use crate::compare::Disagreement;
use crate::keywrap::PLAINTEXT_LIMIT;
use crate::openssl::{OpenSsl, Way};

pub struct Third {
    openssl: Result<OpenSsl, String>,
    answers: u64,
}

impl Third {
    pub fn new() -> Third {
        Third { openssl: OpenSsl::load(), answers: 0 }
    }

    pub fn agree(&mut self, case: &Case, paper: &Result<Vec<u8>, u8>) -> Result<(), Disagreement> {
        let (Ok(openssl), Some((way, key, octets))) = (&mut self.openssl, question(case)) else {
            return Ok(());
        };
        let answer = openssl.answer(way, key, octets);
        self.answers += 1;
        let same = match (&answer, paper) {
            (Some(octets), Ok(paper)) => octets == paper,
            (Some(_), Err(13)) | (None, Err(22)) => true,
            _ => false,
        };
        if same {
            return Ok(());
        }
        let asked = "id-aes128-wrap-pad".to_string();
        Err(Disagreement { asked, who: "OpenSSL", answer: format!("{answer:02x?}"), paper: format!("{paper:02x?}") })
    }

    /// How many answers agree, or that there are none.
    pub fn summary(&self) -> String {
        match &self.openssl {
            Ok(_) => format!("OpenSSL: {} answers agree", self.answers),
            Err(why) => format!("OpenSSL: NOT RUN, {why}"),
        }
    }
}

/// What to ask OpenSSL for a case on which it has a rule.
fn question(case: &Case) -> Option<(Way, &[u8; 16], &[u8])> {
    let (way, key, octets, longest) = match case {
        Case::Wrap { key, plaintext, .. } => (Way::Wrap, key, plaintext, PLAINTEXT_LIMIT),
        Case::Unwrap { key, ciphertext, .. } => (Way::Unwrap, key, ciphertext, PLAINTEXT_LIMIT + 8),
        _ => return None,
    };
    let spoken_of = !octets.is_empty() && octets.len() <= longest;
    Some((way, key[..].try_into().ok()?, &octets[..])).filter(|_| spoken_of)
}
