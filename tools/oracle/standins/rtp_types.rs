//! `rtp_types`: what rtp_packet.rs names, so that the file compiles as it stands. Nothing here is ever called: the driver
//! reads datagrams itself, after RFC 3550, and no call of the queue writes one.

use std::marker::PhantomData;

pub struct RtpPacketBuilder<P, E>(PhantomData<(P, E)>);

impl<'a> RtpPacketBuilder<&'a [u8], Vec<u8>> {
    #[allow(clippy::new_without_default)]
    pub fn new() -> Self {
        unreachable!()
    }
    pub fn payload_type(self, _: u8) -> Self {
        self
    }
    pub fn sequence_number(self, _: u16) -> Self {
        self
    }
    pub fn ssrc(self, _: u32) -> Self {
        self
    }
    pub fn timestamp(self, _: u32) -> Self {
        self
    }
    pub fn marker_bit(self, _: bool) -> Self {
        self
    }
    pub fn payload(self, _: &'a [u8]) -> Self {
        self
    }
    pub fn extension(self, _: u16, _: Vec<u8>) -> Self {
        self
    }
    pub fn calculate_size(&self) -> Result<usize, RtpParseError> {
        unreachable!()
    }
    pub fn write<W>(&self, _: &mut W) -> Result<(), RtpParseError> {
        unreachable!()
    }
}

#[derive(Debug)]
pub struct RtpParseError;

pub struct RtpPacket<'a>(PhantomData<&'a [u8]>);

impl<'a> RtpPacket<'a> {
    pub fn parse(_: &'a [u8]) -> Result<Self, RtpParseError> {
        unreachable!()
    }
    pub fn extension(&self) -> Option<(u16, &'a [u8])> {
        unreachable!()
    }
    pub fn payload_type(&self) -> u8 {
        unreachable!()
    }
    pub fn sequence_number(&self) -> u16 {
        unreachable!()
    }
    pub fn ssrc(&self) -> u32 {
        unreachable!()
    }
    pub fn timestamp(&self) -> u32 {
        unreachable!()
    }
    pub fn marker_bit(&self) -> bool {
        unreachable!()
    }
    pub fn payload(&self) -> &'a [u8] {
        unreachable!()
    }
}

pub mod prelude {
    pub trait RtpPacketWriter {
        type Output;
        type Payload;
        type Extension;

        fn reserve(&mut self, size: usize);
        fn push(&mut self, data: &[u8]);
        fn push_extension(&mut self, extension_data: &Self::Extension);
        fn push_payload(&mut self, data: &Self::Payload);
        fn padding(&mut self, size: u8);
        fn finish(&mut self) -> Self::Output;
    }
}
