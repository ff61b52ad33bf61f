//! What has to be verified.
use crate::raw::Asked;
use std::fmt;

/// What has to be verified before a record can be appended: whether the signature belongs to the message under the key.
#[derive(Clone, PartialEq, Eq)]
pub struct SignatureCheck {
    // The key's text, the message and the signature's text, one behind the other.
    pub(crate) bytes: Vec<u8>,
    pub(crate) asked: Asked,
}

impl SignatureCheck {
    /// A question of these parts. A log takes its answer only for the record that asks it.
    pub fn new(key: &str, message: &[u8], signature: &str) -> Self {
        SignatureCheck {
            bytes: [key.as_bytes(), message, signature.as_bytes()].concat(),
            asked: Asked { key_len: key.len(), message_len: message.len(), signature_len: signature.len() },
        }
    }

    /// The text of the signer's key: the algorithm's name, a colon, base64.
    pub fn key(&self) -> &str {
        text(&self.bytes[..self.asked.key_len])
    }

    /// What was signed.
    pub fn message(&self) -> &[u8] {
        &self.bytes[self.asked.key_len..][..self.asked.message_len]
    }

    /// The signature's text, in the form of the key's.
    pub fn signature(&self) -> &str {
        text(&self.bytes[self.asked.key_len + self.asked.message_len..])
    }
}

// The library's texts are UTF-8.
fn text(bytes: &[u8]) -> &str {
    std::str::from_utf8(bytes).unwrap_or("")
}

impl fmt::Debug for SignatureCheck {
    fn fmt(&self, f: &mut fmt::Formatter<'_>) -> fmt::Result {
        f.debug_struct("SignatureCheck")
            .field("key", &self.key())
            .field("message", &self.message())
            .field("signature", &self.signature())
            .finish()
    }
}
