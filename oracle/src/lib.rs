//! The broker's own source with the shims around it, and the harness that runs it.

// The broker's own: broker (with its probes), selector, openwire::model, openwire::props.
pub mod broker;
pub mod openwire;
pub mod selector;

// Shims.
pub mod auth;
pub mod bans;
pub mod config;
pub mod tls;

// The harness.
pub mod harness;
