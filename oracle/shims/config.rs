//! Shim: the settings the broker's core reads, with nothing that reads a file.

use std::path::PathBuf;

#[derive(Default)]
pub struct Config {
    pub port: u16,
    pub users: Vec<(String, String)>,
    pub allow_anonymous: bool,
    pub bans_path: PathBuf,
    pub max_memory_bytes: u64,
    pub topic_max_pending_per_consumer: u64,
    pub use_broker_clock: bool,
    pub default_ttl_ms: u64,
    pub ttl_ceiling_ms: u64,
    pub expiry_check_interval_ms: u64,
    pub auto_delete_empty_after_secs: u64,
    pub compress_threshold_bytes: u64,
    pub compress_min_saving_pct: u64,
}
