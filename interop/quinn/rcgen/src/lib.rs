//! Stands in for the crate `rcgen` in the tests of quinn-proto: hands out one of two certificates.

/// A certificate with its key.
pub enum Certificate {
    /// For `localhost`.
    Small,
    /// For `localhost` and a thousand names more.
    Big,
}

/// Why there is none: never.
#[derive(Debug)]
pub struct Error;

/// The certificate for `localhost`, or the big one where more names are asked for.
pub fn generate_simple_self_signed(names: Vec<String>) -> Result<Certificate, Error> {
    Ok(if names.len() == 1 {
        Certificate::Small
    } else {
        Certificate::Big
    })
}

impl Certificate {
    /// Its bytes.
    pub fn serialize_der(&self) -> Result<Vec<u8>, Error> {
        Ok(match self {
            Certificate::Small => include_bytes!("../cert.der").to_vec(),
            Certificate::Big => include_bytes!("../big-cert.der").to_vec(),
        })
    }

    /// Its key, in PKCS 8.
    pub fn serialize_private_key_der(&self) -> Vec<u8> {
        match self {
            Certificate::Small => include_bytes!("../key.der").to_vec(),
            Certificate::Big => include_bytes!("../big-key.der").to_vec(),
        }
    }
}
