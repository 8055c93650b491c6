/// The tag that holds the text of the sampling mechanism.
pub const SAMPLING_DECISION_MAKER_TAG_KEY: &str = "_dd.p.dm";
