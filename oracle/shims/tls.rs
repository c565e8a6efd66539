//! Shim: what a TLS handshake negotiated. No connection here has one.

#[derive(Debug, Clone, Default)]
pub struct Negotiated {
    pub version: String,
    pub cipher: String,
    pub client_cert: Option<String>,
}
