//! TLS 1.3 both ways. No authority vouches for a certificate: the configuration lists the key, or the handshake fails.

use crate::identity::{PeerId, id_of};
use crate::intake::Intake;
use crate::now;
use openssl::error::ErrorStack;
use openssl::ssl::{
    Ssl, SslContext, SslMethod, SslOptions, SslSessionCacheMode, SslVerifyMode, SslVersion,
};
use openssl::x509::{X509StoreContextRef, X509VerifyResult};
use std::io;
use std::pin::Pin;
use std::sync::{Arc, OnceLock};
use tokio::net::TcpStream;
use tokio_openssl::SslStream;

pub struct Tls {
    context: SslContext,
    intake: Arc<Intake>,
}

/// A connection whose peer has proved its key.
pub type Stream = SslStream<TcpStream>;

const MUTUAL: SslVerifyMode = SslVerifyMode::PEER.union(SslVerifyMode::FAIL_IF_NO_PEER_CERT);

/// Whether a certificate is the only one, and of a key that may be. Whatever stands above it is refused before any signature of the
/// chain is checked: a stranger could let others' large keys be checked.
fn is_of(store: &mut X509StoreContextRef, may: impl FnOnce(&PeerId) -> bool) -> bool {
    let is_alone = store.error_depth() == 0 && store.chain().is_none_or(|it| it.len() <= 1);
    let is_right = is_alone && store.current_cert().and_then(id_of).is_some_and(|it| may(&it));
    store.set_error(match is_right {
        true => X509VerifyResult::OK,
        false => X509VerifyResult::APPLICATION_VERIFICATION,
    });
    is_right
}

impl Tls {
    pub fn new(intake: Arc<Intake>) -> Result<Tls, ErrorStack> {
        let mut builder = SslContext::builder(SslMethod::tls())?;
        builder.set_min_proto_version(Some(SslVersion::TLS1_3))?;
        let certificate = intake.identity.certificate()?;
        builder.set_certificate(&certificate)?;
        builder.set_private_key(&intake.identity.key)?;
        builder.set_session_cache_mode(SslSessionCacheMode::OFF);
        builder.set_options(SslOptions::NO_TICKET);
        builder.set_verify_depth(0);
        let known = intake.clone();
        // Refuses strangers early; `accept` decides.
        builder.set_verify_callback(MUTUAL, move |_, store| {
            is_of(store, |it| known.admits(now(), it))
        });
        Ok(Tls { context: builder.build(), intake })
    }

    /// Returns the connection, and who it is.
    pub async fn accept(&self, stream: TcpStream) -> io::Result<(Stream, PeerId)> {
        let mut stream = SslStream::new(Ssl::new(&self.context)?, stream)?;
        Pin::new(&mut stream).accept().await.map_err(io::Error::other)?;
        match id(&stream).filter(|it| self.intake.admits(now(), it)) {
            Some(id) => Ok((stream, id)),
            None => Err(io::Error::other("a stranger")),
        }
    }

    /// Connects to a peer. Whoever else listens there does not get the own certificate: so a dial that is passed on to another relay
    /// takes no connection's place there.
    pub async fn connect(&self, stream: TcpStream, expected: PeerId) -> io::Result<Stream> {
        let mut ssl = Ssl::new(&self.context)?;
        let seen = Arc::new(OnceLock::new());
        let found = seen.clone();
        let is_expected = move |it: &PeerId| {
            found.get_or_init(|| *it);
            *it == expected
        };
        ssl.set_verify_callback(MUTUAL, move |_, store| is_of(store, &is_expected));
        let mut stream = SslStream::new(ssl, stream)?;
        let connected = Pin::new(&mut stream).connect().await;
        let is_other = stream.ssl().verify_result() != X509VerifyResult::OK;
        if is_other || (connected.is_ok() && id(&stream) != Some(expected)) {
            let other = seen.get().map(hex::encode).unwrap_or_default();
            return Err(io::Error::other(format!("another key listens there: {other}")));
        }
        let failed = |why| io::Error::other(format!("no handshake of TLS 1.3: {why}"));
        connected.map(|()| stream).map_err(failed)
    }
}

/// Whose key the other side has proved to have.
fn id(stream: &Stream) -> Option<PeerId> {
    stream.ssl().peer_certificate().and_then(|it| id_of(&it))
}
