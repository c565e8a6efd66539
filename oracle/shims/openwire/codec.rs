//! Shim: the wire codec. Messages here have no properties and no body, so it never runs, and
//! stops the program if it does.

use bytes::{Bytes, BytesMut};

pub type CodecResult<T> = Result<T, String>;

pub fn err<T>(text: impl Into<String>) -> CodecResult<T> {
    Err(text.into())
}

fn never() -> ! {
    unreachable!("the oracle encodes and decodes nothing")
}

pub fn decode_modified_utf8(_data: &Bytes) -> CodecResult<String> {
    never()
}

pub fn encode_modified_utf8(_text: &str) -> Vec<u8> {
    never()
}

pub struct Reader;

impl Reader {
    pub fn new(_data: Bytes) -> Reader {
        never()
    }

    pub fn u8(&mut self) -> CodecResult<u8> {
        never()
    }

    pub fn bool(&mut self) -> CodecResult<bool> {
        never()
    }

    pub fn u16(&mut self) -> CodecResult<u16> {
        never()
    }

    pub fn i16(&mut self) -> CodecResult<i16> {
        never()
    }

    pub fn i32(&mut self) -> CodecResult<i32> {
        never()
    }

    pub fn i64(&mut self) -> CodecResult<i64> {
        never()
    }

    pub fn f32(&mut self) -> CodecResult<f32> {
        never()
    }

    pub fn f64(&mut self) -> CodecResult<f64> {
        never()
    }

    pub fn utf(&mut self) -> CodecResult<String> {
        never()
    }

    pub fn take(&mut self, _len: usize) -> CodecResult<Bytes> {
        never()
    }
}

pub struct Writer;

impl Writer {
    pub fn new(_buf: &mut BytesMut) -> Writer {
        never()
    }

    pub fn u8(&mut self, _v: u8) {
        never()
    }

    pub fn bool(&mut self, _v: bool) {
        never()
    }

    pub fn u16(&mut self, _v: u16) {
        never()
    }

    pub fn i32(&mut self, _v: i32) {
        never()
    }

    pub fn i64(&mut self, _v: i64) {
        never()
    }

    pub fn f32(&mut self, _v: f32) {
        never()
    }

    pub fn f64(&mut self, _v: f64) {
        never()
    }

    pub fn utf(&mut self, _v: &str) {
        never()
    }

    pub fn raw(&mut self, _v: &[u8]) {
        never()
    }
}
