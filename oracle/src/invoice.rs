//! As much of the original's invoice as its copied rules read, under the original's names.

#[derive(Clone, Debug)]
pub struct Identifier {
    content: String,
    scheme: Option<String>,
}

impl Identifier {
    pub fn new(content: &str, scheme: Option<&str>) -> Self {
        Self {
            content: content.to_owned(),
            scheme: scheme.map(str::to_owned),
        }
    }

    pub fn content(&self) -> &str {
        &self.content
    }

    pub fn scheme(&self) -> Option<&str> {
        self.scheme.as_deref()
    }
}

#[derive(Default)]
pub struct Party {
    pub electronic_address: Option<Identifier>,
    pub identifiers: Vec<Identifier>,
    pub legal_registration: Option<Identifier>,
    pub vat_identifier: Option<String>,
}

#[derive(Default)]
pub struct Payee {
    pub identifier: Option<Identifier>,
    pub legal_registration: Option<Identifier>,
}

#[derive(Default)]
pub struct TaxRepresentative {
    pub vat_identifier: Option<String>,
}

#[derive(Default)]
pub struct Invoice {
    pub seller: Party,
    pub buyer: Party,
    pub payee: Option<Payee>,
    pub tax_representative: Option<TaxRepresentative>,
}

impl Invoice {
    /// An invoice with one field, at the term of its number; `None` where no rule reads that term.
    pub fn with_field(scheme: Option<&str>, term: u32, content: &str) -> Option<Self> {
        let id = || Some(Identifier::new(content, scheme));
        let vat = || Some(content.to_owned());
        let mut inv = Self::default();
        match term {
            29 => inv.seller.identifiers.extend(id()),
            30 => inv.seller.legal_registration = id(),
            31 => inv.seller.vat_identifier = vat(),
            34 => inv.seller.electronic_address = id(),
            46 => inv.buyer.identifiers.extend(id()),
            47 => inv.buyer.legal_registration = id(),
            48 => inv.buyer.vat_identifier = vat(),
            49 => inv.buyer.electronic_address = id(),
            60 => inv.payee.get_or_insert_default().identifier = id(),
            61 => inv.payee.get_or_insert_default().legal_registration = id(),
            63 => {
                inv.tax_representative
                    .get_or_insert_default()
                    .vat_identifier = vat()
            }
            _ => return None,
        }
        Some(inv)
    }
}

#[derive(Clone, Copy, Debug, PartialEq, Eq)]
pub struct BtId(pub u16);

#[derive(Clone, Copy, Debug, PartialEq, Eq)]
pub enum Group {
    Seller,
    Buyer,
    Payee,
    TaxRepresentative,
}

#[derive(Clone, Copy, Debug, PartialEq, Eq)]
pub struct Path {
    pub group: Group,
    pub term: BtId,
}

impl Path {
    pub fn group_term(group: Group, term: BtId) -> Self {
        Self { group, term }
    }
}

/// Whether a rule reports anything. The invoices here have one field, so that there is one place to report.
pub struct Findings<'a> {
    out: &'a mut Option<Path>,
}

impl Findings<'_> {
    pub fn at(&mut self, path: Path) {
        *self.out = Some(path);
    }
}

#[derive(Clone, Copy, Debug, PartialEq, Eq)]
pub struct RuleId(pub &'static str);

impl RuleId {
    pub const fn new(id: &'static str) -> Self {
        Self(id)
    }
}

#[derive(Clone, Copy, Debug, PartialEq, Eq)]
pub enum Severity {
    Fatal,
    Warning,
}

#[derive(Clone, Copy, Debug, PartialEq, Eq)]
pub enum Source {
    ArtefactOnly,
}

pub struct Rule {
    pub id: RuleId,
    pub severity: Severity,
    pub text: &'static str,
    pub terms: &'static [BtId],
    pub source: Source,
    pub eval: fn(&Invoice, &mut Findings<'_>),
}

impl Rule {
    /// The place that the rule reports on an invoice with one field.
    pub fn reported(&self, inv: &Invoice) -> Option<Path> {
        let mut out = None;
        (self.eval)(inv, &mut Findings { out: &mut out });
        out
    }
}
