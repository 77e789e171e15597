//! rtp/extensions.rs, which the sources at hand lack: names only, for rtp_packet.rs. Header extension contents are left
//! out by 01, and nothing here is ever called.

pub(crate) struct RtpExtensionsWriter;

impl RtpExtensionsWriter {
    pub(crate) fn new(_: bool) -> Self {
        unreachable!()
    }
    pub(crate) fn write(&mut self, _: u8, _: &[u8]) {
        unreachable!()
    }
    pub(crate) fn is_empty(&self) -> bool {
        unreachable!()
    }
    pub(crate) fn finish(self) -> (u16, Vec<u8>) {
        unreachable!()
    }
}

pub(crate) fn parse_extensions(_: u16, _: &[u8]) -> std::vec::IntoIter<(u8, &[u8])> {
    unreachable!()
}
