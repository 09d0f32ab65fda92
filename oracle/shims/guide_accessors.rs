// What follows is appended by the oracle's build: it only reads what is private above.

impl GuideLoc {
    pub(crate) fn span(self) -> u32 {
        self.id.0
    }

    pub(crate) fn position(self) -> u32 {
        self.pos
    }
}

impl<T: Copy + Debug, F: SmallField, Cfg: CSResolverConfig> BufferGuide<T, F, Cfg> {
    /// Each span's number and entries, in the window's order.
    pub(crate) fn window(&self) -> impl Iterator<Item = (u32, &[OrderInfo<T>])> {
        self.spans.iter().map(|span| (span.id.0, &span.buffer[..]))
    }
}

impl GuideStats {
    pub(crate) fn average(&self) -> f32 {
        self.avg_parallelism
    }

    pub(crate) fn median(&self) -> usize {
        self.median_parallelism
    }

    pub(crate) fn low(&self) -> &[u32] {
        &self.parallelism_low
    }
}

impl<F: SmallField, Cfg: CSResolverConfig> SpansGuide<F, Cfg> {
    /// Each span's origin and next position, in the window's order.
    pub(crate) fn window(&self) -> Vec<(OrderIx, OrderIx)> {
        self.spans
            .iter()
            .map(|span| (span.origin.index, span.next.index))
            .collect()
    }
}
