//! The key of a relay. A peer is known by the SHA-256 of its Ed25519 public key. A certificate is made from the key at
//! each start, signed by it, and says nothing else.

use crate::{invalid, of};
use openssl::asn1::Asn1Time;
use openssl::error::ErrorStack;
use openssl::hash::MessageDigest;
use openssl::pkey::{HasPublic, Id, PKey, PKeyRef, Private, Public};
use openssl::sha::sha256;
use openssl::sign::{Signer, Verifier};
use openssl::x509::{X509, X509Builder, X509Ref};
use std::fs::{OpenOptions, metadata, read};
use std::io::{self, Write};
use std::os::unix::fs::{OpenOptionsExt, PermissionsExt};
use std::path::Path;

/// The SHA-256 of a peer's public key.
pub type PeerId = [u8; 32];

/// The key of a relay, whose private part `{:?}` does not print.
#[derive(Debug)]
pub struct Identity {
    pub(crate) key: PKey<Private>,
    /// Its public part.
    pub public: [u8; 32],
    /// What peers know it by.
    pub id: PeerId,
}

/// Whether others than its owner may read a file.
pub fn may_others_read(file: &Path) -> io::Result<bool> {
    Ok(metadata(file).map_err(of(file))?.permissions().mode() & 0o077 != 0)
}

impl Identity {
    /// Makes a key.
    pub fn generate() -> io::Result<Identity> {
        Identity::of(PKey::generate_ed25519()?)
    }

    /// Reads a key from a file.
    pub fn load(file: &Path) -> io::Result<Identity> {
        let load = || {
            let key = PKey::private_key_from_pem(&read(file)?);
            Identity::of(key.map_err(|_| invalid("not a private key in PEM form"))?)
        };
        load().map_err(of(file))
    }

    /// Writes the key to a new file that only its owner may read.
    pub fn save(&self, file: &Path) -> io::Result<()> {
        let pem = self.key.private_key_to_pem_pkcs8()?;
        let mut options = OpenOptions::new();
        let new = options.write(true).create_new(true).mode(0o600);
        let mut new = new.open(file).map_err(of(file))?;
        new.write_all(&pem)?;
        new.sync_all()
    }

    fn of(key: PKey<Private>) -> io::Result<Identity> {
        let public = public(&key).ok_or_else(|| invalid("not an Ed25519 key"))?;
        Ok(Identity { key, public, id: sha256(&public) })
    }

    /// A certificate of the key, signed by itself, for all times.
    pub(crate) fn certificate(&self) -> Result<X509, ErrorStack> {
        let mut builder = X509Builder::new()?;
        let [from, to] = ["20200101000000Z", "99991231235959Z"].map(Asn1Time::from_str);
        builder.set_not_before(from?.as_ref())?;
        builder.set_not_after(to?.as_ref())?;
        builder.set_pubkey(&self.key)?;
        builder.sign(&self.key, MessageDigest::null())?;
        Ok(builder.build())
    }

    pub(crate) fn sign(&self, bytes: &[u8]) -> Result<Vec<u8>, ErrorStack> {
        Signer::new_without_digest(&self.key)?.sign_oneshot_to_vec(bytes)
    }
}

fn public(key: &PKeyRef<impl HasPublic>) -> Option<[u8; 32]> {
    if key.id() == Id::ED25519 { key.raw_public_key().ok()?.try_into().ok() } else { None }
}

/// The id of who proves to have the key of the certificate.
pub(crate) fn id_of(certificate: &X509Ref) -> Option<PeerId> {
    let key = certificate.public_key().ok()?;
    public(&key).map(|it| sha256(&it))
}

/// The public key of an author.
#[derive(Debug)]
pub struct PublicKey(PKey<Public>);

impl PublicKey {
    /// Reads a key. Returns `None` for what is none.
    pub fn parse(public: &[u8]) -> Option<PublicKey> {
        PKey::public_key_from_raw_bytes(public, Id::ED25519).ok().map(PublicKey)
    }

    /// Whether the owner of the key signed bytes.
    pub fn has_signed(&self, signature: &[u8], bytes: &[u8]) -> bool {
        let verifier = Verifier::new_without_digest(&self.0);
        verifier.and_then(|mut it| it.verify_oneshot(signature, bytes)).unwrap_or(false)
    }
}

#[cfg(test)]
mod tests {
    use super::*;

    #[test]
    fn a_certificate_has_its_keys_id() {
        let identity = Identity::generate().unwrap();
        let certificate = identity.certificate().unwrap();
        assert_eq!(id_of(&certificate), Some(identity.id));
        assert!(certificate.verify(&identity.key).unwrap());
    }

    #[test]
    fn a_signature_is_of_one_key_and_text() {
        let identity = Identity::generate().unwrap();
        let other = Identity::generate().unwrap();
        let signature = identity.sign(b"text").unwrap();
        let [key, other] = [identity, other].map(|it| PublicKey::parse(&it.public).unwrap());
        assert!(key.has_signed(&signature, b"text"));
        assert!(!key.has_signed(&signature, b"Text"));
        assert!(!other.has_signed(&signature, b"text"));
        assert!(!key.has_signed(&[0; 64], b"text") && !key.has_signed(&[], b"text"));
        assert!(PublicKey::parse(&[0; 3]).is_none());
    }
}
