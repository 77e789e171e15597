
// Appended by tools/oracle/build: reading access for the driver.
impl Jitter {
    pub(crate) fn ticks(&self) -> f64 {
        self.jitter
    }
}
