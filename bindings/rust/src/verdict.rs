//! What a check decided.

numbered! {
    /// What a check decided.
    Verdict called "verdict" {
        /// No rule reads such a field.
        NoRule = 0 "no rule",
        /// The rule accepts the content. That says nothing about whether the party exists.
        Accepted = 1 "accepted",
        /// Refused; the reason says why.
        Refused = 2 "refused",
        /// Let through unread: the rule is not about such a content.
        Unread = 3 "let through unread",
    }
}
