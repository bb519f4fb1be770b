//! How grave it is if a rule refuses.

numbered! {
    /// How grave it is if the rule refuses. It belongs to the rule, and stands in the answer whatever the verdict is.
    Severity called "severity" {
        /// No rule, or one that has no published number.
        NoSeverity = 0 "no severity",
        /// A refusal by the rule is published as fatal.
        Fatal = 1 "fatal",
        /// A refusal by the rule is published as a warning.
        Warning = 2 "warning",
    }
}
