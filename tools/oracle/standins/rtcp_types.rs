//! `rtcp_types::NackBuilder`: collects the numbers in the order in which they are added.

#[derive(Debug, Default)]
pub struct NackBuilder(pub Vec<u16>);

impl NackBuilder {
    pub fn add_rtp_sequence(mut self, number: u16) -> NackBuilder {
        self.0.push(number);
        self
    }
}
