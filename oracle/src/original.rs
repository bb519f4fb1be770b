// Copied unchanged from repository hupe1980/en16931, commit 05a2079363, MIT OR Apache-2.0, see NOTICE.
// What stands between "apart" and "end of apart" is not of that repository: it is what the copied text needs to compile and to be called.

// apart: what the copied text names, as much of it as it needs
use crate::invoice::{BtId, Findings, Group, Invoice, Path, Rule, RuleId, Severity, Source};

/// What `eas_value` reads of the guarded list.
struct CodeList {
    terms: &'static str,
    rule: &'static str,
}

static EAS: CodeList = CodeList {
    terms: "BT-34 / BT-49",
    rule: "BR-CL-25",
};

/// The predicate of each rule by scheme.
pub struct Predicates;
// end of apart

// crates/en16931/src/validation/rules/peppol.rs

// ── PEPPOL-COMMON-* — identifier checks, by scheme ────────────────────────────

/// Every schemed party identifier `PEPPOL-COMMON-*` reaches, with where it sits.
///
/// Peppol's UBL contexts are `cbc:EndpointID[@schemeID]` (BT-34, BT-49),
/// `cac:PartyIdentification/cbc:ID[@schemeID]` (BT-29, BT-46, BT-60) and
/// `cbc:CompanyID[@schemeID]` (BT-30, BT-47, BT-61). `endpoints_only` is
/// `PEPPOL-COMMON-R046`'s narrower context.
fn party_identifiers(inv: &Invoice, endpoints_only: bool) -> Vec<(&crate::Identifier, Path)> {
    let mut out = Vec::new();
    for (party, group, [ident, legal, endpoint]) in [
        (&inv.seller, Group::Seller, [29, 30, 34]),
        (&inv.buyer, Group::Buyer, [46, 47, 49]),
    ] {
        if let Some(e) = &party.electronic_address {
            out.push((e, Path::group_term(group, BtId(endpoint))));
        }
        if endpoints_only {
            continue;
        }
        for i in &party.identifiers {
            out.push((i, Path::group_term(group, BtId(ident))));
        }
        if let Some(r) = &party.legal_registration {
            out.push((r, Path::group_term(group, BtId(legal))));
        }
    }
    if let Some(payee) = inv.payee.as_ref().filter(|_| !endpoints_only) {
        if let Some(i) = &payee.identifier {
            out.push((i, Path::group_term(Group::Payee, BtId(60))));
        }
        if let Some(r) = &payee.legal_registration {
            out.push((r, Path::group_term(Group::Payee, BtId(61))));
        }
    }
    out
}

/// Report every identifier in `scheme` whose content `ok` refuses.
fn check_scheme(
    inv: &Invoice,
    f: &mut Findings<'_>,
    scheme: &str,
    endpoints_only: bool,
    ok: fn(&str) -> bool,
) {
    for (id, path) in party_identifiers(inv, endpoints_only) {
        if id.scheme() == Some(scheme) && !ok(id.content()) {
            f.at(path);
        }
    }
}

/// XPath's `normalize-space()`: trimmed, inner whitespace runs collapsed.
fn normalize_space(s: &str) -> String {
    s.split_whitespace().collect::<Vec<_>>().join(" ")
}

/// Every byte an ASCII digit, and at least one.
fn all_digits(s: &str) -> bool {
    !s.is_empty() && s.bytes().all(|b| b.is_ascii_digit())
}

/// `s castable as xs:integer`: optional sign, then digits, surrounding
/// whitespace allowed.
fn castable_integer(s: &str) -> bool {
    let t = s.trim();
    all_digits(t.strip_prefix(['+', '-']).unwrap_or(t))
}

/// The value of each ASCII digit, in order.
fn digit_values(s: &str) -> impl DoubleEndedIterator<Item = u32> + '_ {
    s.bytes().map(|b| u32::from(b - b'0'))
}

/// Peppol's `u:gln` — the GS1 mod-10 check digit. Caller ensures digits only.
fn gln(v: &str) -> bool {
    let Some((body, check)) = v.len().checked_sub(1).and_then(|n| v.split_at_checked(n)) else {
        return false;
    };
    let sum: u32 = digit_values(body)
        .rev()
        .enumerate()
        .map(|(i, d)| d * if i % 2 == 0 { 3 } else { 1 })
        .sum();
    digit_values(check).next() == Some((10 - sum % 10) % 10)
}

/// Peppol's `u:mod11` — weights 2…7 from the right; a value of zero fails.
fn mod11(v: &str) -> bool {
    let Some((body, check)) = v.len().checked_sub(1).and_then(|n| v.split_at_checked(n)) else {
        return false;
    };
    let sum: u32 = digit_values(body)
        .rev()
        .enumerate()
        .map(|(i, d)| d * (u32::try_from(i % 6).unwrap_or(0) + 2))
        .sum();
    v.bytes().any(|b| b != b'0') && digit_values(check).next() == Some((11 - sum % 11) % 11)
}

/// Peppol's `u:mod97-0208` — the Belgian enterprise number's check pair.
fn mod97_0208(v: &str) -> bool {
    let (Some(body), Some(check)) = (v.get(..8), v.get(8..10)) else {
        return false;
    };
    let (Ok(body), Ok(check)) = (body.parse::<u64>(), check.parse::<u64>()) else {
        return false;
    };
    97 - body % 97 == check
}

/// Peppol's `u:checkCodiceIPA` — six ASCII letters or digits.
fn codice_ipa(v: &str) -> bool {
    v.len() == 6 && v.bytes().all(|b| b.is_ascii_alphanumeric())
}

/// Peppol's `u:checkCF` — an Italian *codice fiscale*: 16 characters in the
/// personal shape, or 11 castable as an integer.
fn codice_fiscale(v: &str) -> bool {
    match v.chars().count() {
        16 => {
            let c: Vec<char> = v.chars().collect();
            let letters = |r: std::ops::Range<usize>| c[r].iter().all(char::is_ascii_alphabetic);
            let int =
                |r: std::ops::Range<usize>| castable_integer(&c[r].iter().collect::<String>());
            letters(0..6)
                && int(6..8)
                && letters(8..9)
                && int(9..11)
                && int(14..15)
                && letters(15..16)
        }
        11 => castable_integer(v),
        _ => false,
    }
}

/// Peppol's `u:checkPIVAseIT` — an `IT` *partita IVA* is 11 digits with a Luhn
/// check digit; any other prefix passes.
fn partita_iva(v: &str) -> bool {
    match v.get(..2) {
        Some("IT" | "it") => {
            let code = &v[2..];
            code.len() == 11 && all_digits(code) && {
                let sum: u32 = digit_values(code)
                    .enumerate()
                    .map(|(i, d)| {
                        if i % 2 == 1 {
                            [0, 2, 4, 6, 8, 1, 3, 5, 7, 9][d as usize]
                        } else {
                            d
                        }
                    })
                    .sum();
                sum.is_multiple_of(10)
            }
        }
        _ => true,
    }
}

/// Peppol's `u:checkSEOrgnr` — ten digits, the last a Luhn check over the nine
/// before it.
fn se_orgnr(v: &str) -> bool {
    if v.len() != 10 || !all_digits(v) {
        return false;
    }
    let sum: u32 = digit_values(&v[..9])
        .rev()
        .enumerate()
        .map(|(i, d)| {
            if i % 2 == 0 {
                (d * 2) % 10 + (d * 2) / 10
            } else {
                d
            }
        })
        .sum();
    digit_values(&v[9..]).next() == Some((10 - sum % 10) % 10)
}

/// Peppol's `u:abn` — the Australian Business Number's weighted mod-89 sum.
fn abn(v: &str) -> bool {
    const WEIGHTS: [i64; 11] = [10, 1, 3, 5, 7, 9, 11, 13, 15, 17, 19];
    v.len() == 11
        && all_digits(v)
        && digit_values(v)
            .zip(WEIGHTS)
            .enumerate()
            // The first digit is reduced by one before weighting, so a leading
            // zero contributes -10 — and XPath's `mod` keeps the dividend's sign.
            .map(|(i, (d, w))| (i64::from(d) - i64::from(i == 0)) * w)
            .sum::<i64>()
            % 89
            == 0
}

/// `^[0-9]{n}$` over `normalize-space()`.
fn n_digits(v: &str, n: usize) -> bool {
    let v = normalize_space(v);
    v.len() == n && all_digits(&v)
}

/// `DK` followed by eight digits, over `string()`.
fn dk_and_eight(v: &str) -> bool {
    v.len() == 10 && v.starts_with("DK") && all_digits(&v[2..])
}

/// `^NL[0-9]{9}B[0-9]{2}$` over `normalize-space()`.
fn dutch_vat(v: &str) -> bool {
    let v = normalize_space(v);
    let b = v.as_bytes();
    // On bytes, so a multi-byte character cannot put a slice mid-character.
    b.len() == 14
        && b.starts_with(b"NL")
        && b[2..11].iter().all(u8::is_ascii_digit)
        && b[11] == b'B'
        && b[12..].iter().all(u8::is_ascii_digit)
}

/// A `PEPPOL-COMMON-*` rule: one scheme, one predicate, its published flag.
macro_rules! common_rule {
    ($konst:ident, $id:literal, $severity:ident, $scheme:literal, $endpoints_only:literal,
     $text:literal, $ok:expr) => {
        #[doc = $text]
        #[doc = ""]
        #[doc = concat!("Identifiers with scheme `", $scheme, "`.")]
        pub static $konst: Rule = Rule {
            id: RuleId::new($id),
            severity: Severity::$severity,
            text: $text,
            terms: &[
                BtId(29),
                BtId(30),
                BtId(34),
                BtId(46),
                BtId(47),
                BtId(49),
                BtId(60),
                BtId(61),
            ],
            source: Source::ArtefactOnly,
            eval: |inv, f| check_scheme(inv, f, $scheme, $endpoints_only, $ok),
        };
        // apart: the predicate by itself
        impl Predicates {
            pub const $konst: fn(&str) -> bool = $ok;
        }
        // end of apart
    };
}

common_rule!(
    COMMON_R040,
    "PEPPOL-COMMON-R040",
    Fatal,
    "0088",
    false,
    "GLN must have a valid format according to GS1 rules.",
    |v| {
        let v = normalize_space(v);
        all_digits(&v) && gln(&v)
    }
);
common_rule!(
    COMMON_R041,
    "PEPPOL-COMMON-R041",
    Fatal,
    "0192",
    false,
    "Norwegian organization number MUST be stated in the correct format.",
    |v| n_digits(v, 9) && mod11(&normalize_space(v))
);
common_rule!(
    COMMON_R042,
    "PEPPOL-COMMON-R042",
    Fatal,
    "0184",
    false,
    "Danish organization number (CVR) MUST be stated in the correct format.",
    // UBL's test, `(DK + 8 digits) or (8 characters and 8 digits)`. CII's drops
    // the second alternative; this profile follows the UBL file.
    |v| dk_and_eight(v) || (v.len() == 8 && all_digits(v))
);
common_rule!(
    COMMON_R043,
    "PEPPOL-COMMON-R043",
    Fatal,
    "0208",
    false,
    "Belgian enterprise number MUST be stated in the correct format.",
    |v| n_digits(v, 10) && mod97_0208(&normalize_space(v))
);
common_rule!(
    COMMON_R044,
    "PEPPOL-COMMON-R044",
    Warning,
    "0201",
    false,
    "IPA Code (Codice Univoco Unità Organizzativa) must be stated in the correct format",
    |v| codice_ipa(&normalize_space(v))
);
common_rule!(
    COMMON_R045,
    "PEPPOL-COMMON-R045",
    Warning,
    "0210",
    false,
    "Tax Code (Codice Fiscale) must be stated in the correct format",
    |v| codice_fiscale(&normalize_space(v))
);
common_rule!(
    COMMON_R046,
    "PEPPOL-COMMON-R046",
    Warning,
    "9907",
    true,
    "Tax Code (Codice Fiscale) must be stated in the correct format",
    |v| codice_fiscale(&normalize_space(v))
);
common_rule!(
    COMMON_R047,
    "PEPPOL-COMMON-R047",
    Warning,
    "0211",
    false,
    "Italian VAT Code (Partita Iva) must be stated in the correct format",
    |v| partita_iva(&normalize_space(v))
);
common_rule!(
    COMMON_R049,
    "PEPPOL-COMMON-R049",
    Fatal,
    "0007",
    false,
    "Swedish organization number MUST be stated in the correct format.",
    |v| se_orgnr(&normalize_space(v))
);
common_rule!(
    COMMON_R050,
    "PEPPOL-COMMON-R050",
    Fatal,
    "0151",
    false,
    "Australian Business Number (ABN) MUST be stated in the correct format.",
    // UBL adds `^[0-9]{11}$` before the checksum; CII does not.
    |v| abn(&normalize_space(v))
);
common_rule!(
    COMMON_R052,
    "PEPPOL-COMMON-R052",
    Fatal,
    "0096",
    false,
    "Danish chamber of commerce number (P) MUST be stated in the correct format.",
    |v| v.len() == 10 && all_digits(v)
);
common_rule!(
    COMMON_R053,
    "PEPPOL-COMMON-R053",
    Fatal,
    "0198",
    false,
    "Danish ERSTORG number (SE) MUST be stated in the correct format.",
    dk_and_eight
);
common_rule!(
    COMMON_R054,
    "PEPPOL-COMMON-R054",
    Warning,
    "0106",
    false,
    "Dutch Chamber of Commerce (KVK) numbers (0106) MUST be stated in the correct format \
     (12345678).",
    |v| n_digits(v, 8)
);
common_rule!(
    COMMON_R055,
    "PEPPOL-COMMON-R055",
    Warning,
    "0190",
    false,
    "Dutch organization identification numbers (0190) MUST be stated in the correct format \
     (12345678901234567890).",
    |v| n_digits(v, 20)
);
common_rule!(
    COMMON_R056_1,
    "PEPPOL-COMMON-R056-1",
    Warning,
    "9944",
    false,
    "Dutch VAT numbers (9944) MUST be stated in the correct format (NL123456789B12).",
    dutch_vat
);
common_rule!(
    COMMON_R057,
    "PEPPOL-COMMON-R057",
    Warning,
    "0217",
    false,
    "Dutch Chamber of Commerce Establishment numbers (0217) MUST be stated in the correct \
     format (123456789012).",
    |v| n_digits(v, 12)
);

/// `PEPPOL-COMMON-R056-2` — a Dutch **VAT identifier** (BT-31, BT-48, BT-63), not
/// a schemed identifier: `PartyTaxScheme[TaxScheme = 'VAT']/CompanyID` starting
/// `NL`.
pub static COMMON_R056_2: Rule = Rule {
    id: RuleId::new("PEPPOL-COMMON-R056-2"),
    severity: Severity::Warning,
    text: "Dutch VAT numbers MUST have the format (NL123456789B12).",
    terms: &[BtId(31), BtId(48), BtId(63)],
    source: Source::ArtefactOnly,
    eval: |inv, f| {
        let tax_rep = inv
            .tax_representative
            .as_ref()
            .and_then(|t| t.vat_identifier.as_deref());
        for (vat, path) in [
            (
                inv.seller.vat_identifier.as_deref(),
                Path::group_term(Group::Seller, BtId(31)),
            ),
            (
                inv.buyer.vat_identifier.as_deref(),
                Path::group_term(Group::Buyer, BtId(48)),
            ),
            (
                tax_rep,
                Path::group_term(Group::TaxRepresentative, BtId(63)),
            ),
        ] {
            if let Some(v) = vat
                && normalize_space(v).starts_with("NL")
                && !dutch_vat(v)
            {
                f.at(path);
            }
        }
    },
};

// crates/en16931/src/validation/rules/xrechnung.rs

/// Whether BT-90 is a well-formed SEPA Creditor Identifier (EPC AT-02).
///
/// `CC##ZZZxxxxxxxx`: country, two mod-97 check digits over the national
/// identifier, a three-character business code, then the identifier itself.
///
/// Without the `sepa` feature this is a shape check only; the check digits are
/// not verified.
#[must_use]
pub fn is_valid_creditor_identifier(s: &str) -> bool {
    #[cfg(feature = "sepa")]
    {
        sepa::validate_creditor_id(s).is_ok()
    }
    #[cfg(not(feature = "sepa"))]
    {
        let c: String = s.chars().filter(|c| !c.is_whitespace()).collect();
        c.len() >= 8
            && c.len() <= 35
            && c.bytes().all(|b| b.is_ascii_alphanumeric())
            && c[..2].bytes().all(|b| b.is_ascii_alphabetic())
            && c[2..4].bytes().all(|b| b.is_ascii_digit())
    }
}

/// The checksum-only fallback, and the reference the `sepa` path must agree
/// with on everything it accepts.
#[must_use]
pub fn is_valid_iban_checksum(s: &str) -> bool {
    let compact: String = s.chars().filter(|c| !c.is_whitespace()).collect();
    if compact.len() < 5 || compact.len() > 34 {
        return false;
    }
    if !compact.bytes().all(|b| b.is_ascii_alphanumeric()) {
        return false;
    }
    let bytes = compact.as_bytes();
    if !bytes[0].is_ascii_alphabetic()
        || !bytes[1].is_ascii_alphabetic()
        || !bytes[2].is_ascii_digit()
        || !bytes[3].is_ascii_digit()
    {
        return false;
    }
    // Move the first four characters to the end, map letters to 10..35, and
    // take the remainder mod 97 incrementally.
    let rearranged = compact[4..].chars().chain(compact[..4].chars());
    let mut remainder: u32 = 0;
    for c in rearranged {
        let value = if c.is_ascii_digit() {
            u32::from(c as u8 - b'0')
        } else {
            u32::from(c.to_ascii_uppercase() as u8 - b'A') + 10
        };
        // Two digits for a letter, one for a digit.
        remainder = if value >= 10 {
            (remainder * 100 + value) % 97
        } else {
            (remainder * 10 + value) % 97
        };
    }
    remainder == 1
}

// crates/en16931/src/codes/guard.rs

// ── Withdrawn codes ───────────────────────────────────────────────────────────

/// A withdrawn EAS code and its successor. Tests assert each code is absent
/// from the current list and each successor present.
///
/// | Code | Was | Withdrawn | Use |
/// |---|---|---|---|
/// | `9901` | DK:CPR | 2023-11-30 | `0096` |
/// | `9902` | DK:CVR | 2023-11-30 | `0184` |
/// | `9904` | DK:SE | 2023-11-30 | `0198` |
/// | `9905` | DK:VANS | 2023-11-30 | — |
/// | `9906` | IT:VAT | 2023-07-31 | `0211` |
/// | `9907` | IT:CF | 2023-07-31 | `0210` |
/// | `9917` | IS:KT | — | `0196` |
/// | `9921` | IT:IPA | 2023-11-30 | `0201` |
/// | `9954` | NL:OINO | — | `0190` |
/// | `9955` | SE:VAT | 2023-07-31 | `0007` |
/// | `9956` | BE:CBE | 2023-12-31 | `0208` |
/// | `9958` | DE:LID | 2023-07-31 | `0204` |
pub struct Withdrawn {
    /// The code that no longer belongs to the list.
    pub code: &'static str,
    /// What it used to mean.
    pub was: &'static str,
    /// The code to use instead, when the authority names one (`None` for `9905`).
    pub use_instead: Option<&'static str>,
    /// The extra sentence worth saying, if any.
    pub note: Option<&'static str>,
}

/// The EAS schemes withdrawn since CEN artefact `validation-1.2.0`.
///
/// From the OpenPeppol eDEC code-list change log.
pub static WITHDRAWN: &[Withdrawn] = &[
    Withdrawn {
        code: "9901",
        was: "DK:CPR — Danish Ministry of the Interior and Health",
        use_instead: Some("0096"),
        note: None,
    },
    Withdrawn {
        code: "9902",
        was: "DK:CVR — the Danish Commerce and Companies Agency",
        use_instead: Some("0184"),
        note: None,
    },
    Withdrawn {
        code: "9904",
        was: "DK:SE — Danish Ministry of Taxation",
        use_instead: Some("0198"),
        note: None,
    },
    Withdrawn {
        code: "9905",
        was: "DK:VANS — Danish VANS providers",
        use_instead: None,
        note: Some(
            "withdrawn on 2023-11-30 with no successor; use the party's own registry scheme",
        ),
    },
    Withdrawn {
        code: "9906",
        was: "IT:VAT — Italian VAT number",
        use_instead: Some("0211"),
        note: None,
    },
    Withdrawn {
        code: "9907",
        was: "IT:CF — Italian codice fiscale",
        use_instead: Some("0210"),
        note: None,
    },
    Withdrawn {
        code: "9917",
        was: "IS:KT — Icelandic kennitala",
        use_instead: Some("0196"),
        note: None,
    },
    Withdrawn {
        code: "9921",
        was: "IT:IPA — Indice delle Pubbliche Amministrazioni",
        use_instead: Some("0201"),
        note: None,
    },
    Withdrawn {
        code: "9954",
        was: "NL:OINO — Dutch Overheidsidentificatienummer",
        use_instead: Some("0190"),
        note: None,
    },
    Withdrawn {
        code: "9955",
        was: "SE:VAT — Swedish VAT number",
        use_instead: Some("0007"),
        note: None,
    },
    Withdrawn {
        code: "9956",
        was: "BE:CBE — Belgian Crossroads Bank for Enterprises",
        use_instead: Some("0208"),
        note: None,
    },
    Withdrawn {
        code: "9958",
        was: "DE:LID — the Peppol Leitweg-ID scheme",
        use_instead: Some("0204"),
        note: Some(
            "the Leitweg-ID itself belongs in BT-10 (buyer reference) under XRechnung's BR-DE-15; \
             0204 is the scheme for addressing that authority as a Peppol participant",
        ),
    },
];

/// The withdrawal record for `code`, if there is one.
#[must_use]
pub fn withdrawn(code: &str) -> Option<&'static Withdrawn> {
    WITHDRAWN.iter().find(|w| w.code == code)
}

// ── The error ─────────────────────────────────────────────────────────────────

/// A value that is not in the code list its business term draws from.
///
/// Carries the rule that reports it at validation time.
#[derive(Debug, Clone, PartialEq, Eq)]
pub struct CodeError {
    /// The business terms the list serves — `"BT-34 / BT-49"`.
    pub terms: &'static str,
    /// What the list is — `"the CEF EAS code list"`.
    pub list: &'static str,
    /// The rule that reports this at validation time — `"BR-CL-25"`.
    pub rule: &'static str,
    /// The offered value.
    pub value: String,
    /// What to do instead, when this crate can tell. See [`CodeList::advice`].
    pub hint: Option<String>,
}

// ── Value shapes, for the schemes that have one ───────────────────────────────

/// The EAS schemes whose value [`eas_value`] checks, not merely the code.
pub const CHECKED_EAS_SCHEMES: &[&str] = &["0088"];

/// Whether [`eas_value`] can say anything about a value under `scheme`.
///
/// Tells "verified" from "not verifiable here" when `eas_value` returns `Ok`.
#[must_use]
pub fn eas_value_is_checkable(scheme: &str) -> bool {
    CHECKED_EAS_SCHEMES.contains(&scheme)
}

/// Check an electronic address value against its EAS scheme's own format.
///
/// `BR-CL-25` checks only the scheme code. Only schemes with a fixed,
/// self-verifying format are checked:
///
/// | Scheme | Check |
/// |---|---|
/// | `0088` GLN | 13 digits, GS1 mod-10 check digit |
///
/// # Errors
/// [`CodeError`] when `scheme` is one of [`CHECKED_EAS_SCHEMES`] and `value`
/// does not have its shape. `Ok(())` for every other scheme — ask
/// [`eas_value_is_checkable`] whether that means anything.
pub fn eas_value(scheme: &str, value: &str) -> Result<(), CodeError> {
    let problem = match scheme {
        "0088" => gln_problem(value),
        _ => None,
    };
    match problem {
        None => Ok(()),
        Some(hint) => Err(CodeError {
            terms: EAS.terms,
            list: "the set of valid GS1 GLNs",
            rule: EAS.rule,
            value: value.to_owned(),
            hint: Some(hint),
        }),
    }
}

/// What is wrong with `value` as a GS1 GLN, if anything.
///
/// GTIN-13 check digit: weights 1 and 3 alternating from the left over the
/// first twelve digits; the check digit brings the sum to a multiple of ten.
fn gln_problem(value: &str) -> Option<String> {
    if value.len() != 13 || !value.bytes().all(|b| b.is_ascii_digit()) {
        return Some(format!(
            "a GS1 GLN (scheme 0088) is exactly 13 digits, and this is {} character(s). \
             Identifiers that are not GLNs — a BDEW Marktlokations-ID, a customer number — \
             need their own EAS scheme, not 0088",
            value.chars().count()
        ));
    }
    let digits: Vec<u32> = value.bytes().map(|b| u32::from(b - b'0')).collect();
    let sum: u32 = digits[..12]
        .iter()
        .enumerate()
        .map(|(i, d)| d * if i % 2 == 0 { 1 } else { 3 })
        .sum();
    let expected = (10 - sum % 10) % 10;
    (digits[12] != expected).then(|| {
        format!(
            "the GS1 check digit is wrong: 13 digits, but {} ends in {} where the \
             first twelve require {expected}",
            value, digits[12]
        )
    })
}

// apart: the rules in one list, and the private functions that are compared or timed by themselves
pub static COMMON: [&Rule; 17] = [
    &COMMON_R040,
    &COMMON_R041,
    &COMMON_R042,
    &COMMON_R043,
    &COMMON_R044,
    &COMMON_R045,
    &COMMON_R046,
    &COMMON_R047,
    &COMMON_R049,
    &COMMON_R050,
    &COMMON_R052,
    &COMMON_R053,
    &COMMON_R054,
    &COMMON_R055,
    &COMMON_R056_1,
    &COMMON_R056_2,
    &COMMON_R057,
];

pub mod open {
    pub fn normalize_space(s: &str) -> String {
        super::normalize_space(s)
    }

    /// The stripped text, by the first line of `is_valid_iban_checksum`.
    pub fn stripped(s: &str) -> String {
        s.chars().filter(|c| !c.is_whitespace()).collect()
    }

    pub fn all_digits(s: &str) -> bool {
        super::all_digits(s)
    }

    pub fn n_digits(s: &str, n: usize) -> bool {
        super::n_digits(s, n)
    }

    pub fn gln(s: &str) -> bool {
        super::gln(s)
    }

    pub fn mod11(s: &str) -> bool {
        super::mod11(s)
    }

    pub fn mod97_0208(s: &str) -> bool {
        super::mod97_0208(s)
    }

    pub fn se_orgnr(s: &str) -> bool {
        super::se_orgnr(s)
    }

    pub fn abn(s: &str) -> bool {
        super::abn(s)
    }

    pub fn partita_iva(s: &str) -> bool {
        super::partita_iva(s)
    }
}
// end of apart
