//! Account and method texts, and the parameters that name them. There are few, so that they meet; some
//! differ in letter case, at an end or by a comma alone.

use super::Generator;
use crate::limits::{APPLICANT_OCTETS, BOOK_OCTETS};

const ACCOUNTS: [&[u8]; 8] = [
    b"u",
    b"https://x/1",
    b"U",
    b"u,v",
    b"https://x/12",
    b"v",
    b"u,",
    b"uu",
];
const METHODS: [&[u8]; 6] = [b"m", b"dns-01", b"M", b"dns", b"n", b"mm"];
/// What a text can't hold, but for the last, which an account can.
const WRONG_OCTETS: [u8; 11] = *b"; \t\n\x00\x1F\x7F\x80\xE1\xFF,";
const ACCOUNT_TAG: &[u8] = b"accounturi";
const METHODS_TAG: &[u8] = b"validationmethods";
/// Tags that a careless comparison takes for one of the two.
const NEARLY_TAGS: [&[u8]; 8] = [
    b"account",
    b"accounturis",
    b"account-uri",
    b"accounturl",
    b"xaccounturi",
    b"validationmethod",
    b"validation-methods",
    b"validationmethods0",
];

impl Generator {
    /// A good account text.
    pub fn account(&mut self) -> Vec<u8> {
        self.near_front(&ACCOUNTS).to_vec()
    }

    /// A good method text.
    pub fn method(&mut self) -> Vec<u8> {
        self.near_front(&METHODS).to_vec()
    }

    pub(super) fn any_account(&mut self) -> Vec<u8> {
        let account = self.account();
        self.any_text(account)
    }

    pub(super) fn any_method(&mut self) -> Vec<u8> {
        let method = self.method();
        self.any_text(method)
    }

    /// Mostly the good text; else one around its limits, or with an octet that it can't hold.
    fn any_text(&mut self, mut text: Vec<u8>) -> Vec<u8> {
        match self.below(64) {
            0 => self.text_around_limit(),
            1 => Vec::new(),
            2 => {
                let place = self.below(text.len() + 1);
                text.insert(place, self.one_of(&WRONG_OCTETS));
                text
            }
            _ => text,
        }
    }

    /// A text a little under or over the limit of its octets.
    pub(super) fn text_around_limit(&mut self) -> Vec<u8> {
        let mut text = vec![b'u'; APPLICANT_OCTETS - 1 + self.near_front(&[0, 1, 2])];
        let last = text.len() - 1;
        let place = self.near_front(&[last, 0, 128]);
        text[place] = self.near_front(b"uv");
        text
    }

    /// One of the two parameters, its tag in any letter case.
    pub(super) fn limit(&mut self) -> Vec<u8> {
        let (account, method) = (self.account(), self.method());
        match self.once_in(2) {
            true => self.account_limit(&account),
            false => self.methods_limit(&method),
        }
    }

    /// What nearly is one of the two.
    pub(super) fn nearly_limit(&mut self) -> Vec<u8> {
        let tag = self.one_of(&NEARLY_TAGS);
        let method = self.method();
        let value = self.methods(&method);
        self.limit_of(tag, value)
    }

    /// To this account, or another.
    fn account_limit(&mut self, account: &[u8]) -> Vec<u8> {
        let value = match self.below(4) {
            0 => self.account(),
            1 => self.any_case(account),
            _ => account.to_vec(),
        };
        self.limit_of(ACCOUNT_TAG, value)
    }

    /// To this method and others, or to others alone.
    fn methods_limit(&mut self, method: &[u8]) -> Vec<u8> {
        let value = self.methods(method);
        self.limit_of(METHODS_TAG, value)
    }

    fn limit_of(&mut self, tag: &[u8], value: Vec<u8>) -> Vec<u8> {
        let tag = match self.once_in(2) {
            true => self.any_case(tag),
            false => tag.to_vec(),
        };
        let [before, behind] = [(); 2].map(|()| self.blanks());
        [&tag[..], before, b"=", behind, &value].concat()
    }

    /// One to three methods, this one among them or not. Now and then one of them is empty, or all
    /// there is.
    fn methods(&mut self, method: &[u8]) -> Vec<u8> {
        let count = 1 + self.near_front(&[0, 1, 2]);
        let mut items: Vec<Vec<u8>> = (0..count).map(|_| self.method()).collect();
        if self.once_in(2) {
            items[self.below(count)] = method.to_vec();
        }
        match self.below(6) {
            0 => items.insert(self.below(count + 1), Vec::new()),
            1 if self.once_in(4) => items = vec![Vec::new()],
            _ => {}
        }
        items.join(&b',')
    }

    /// A few records of the top labels that all have parameters. Most grant this issuer, and most
    /// limit that to this account or this method.
    pub fn book_of_limits(&mut self, issuer: &[u8], account: &[u8], method: &[u8]) -> Vec<u8> {
        let records = 1 + self.near_front(&[0, 1, 2, 3]);
        let grant = |_| {
            let issuer = match self.below(4) {
                0 => self.issuer(),
                _ => self.any_case(issuer),
            };
            let parameters = self.limits(account, method);
            self.limited_grant(&issuer, &parameters)
        };
        (0..records).flat_map(grant).collect()
    }

    /// One limit, both, or one of them twice; sometimes with another parameter, or that alone.
    fn limits(&mut self, account: &[u8], method: &[u8]) -> Vec<Vec<u8>> {
        const COUNTS: [(usize, usize); 8] = [
            (1, 0),
            (0, 1),
            (1, 1),
            (1, 1),
            (2, 0),
            (0, 2),
            (0, 0),
            (0, 0),
        ];
        let (accounts, methods) = self.one_of(&COUNTS);
        let mut parameters = Vec::new();
        for _ in 0..accounts {
            parameters.push(self.account_limit(account));
        }
        for _ in 0..methods {
            let place = self.below(parameters.len() + 1);
            parameters.insert(place, self.methods_limit(method));
        }
        if parameters.is_empty() || self.once_in(4) {
            let other = match self.once_in(3) {
                true => self.nearly_limit(),
                false => self.other_parameter(),
            };
            let place = self.below(parameters.len() + 1);
            parameters.insert(place, other);
        }
        parameters
    }

    /// The same with texts around the limits, and a list of methods that is as long as may be.
    pub(super) fn book_of_long_limits(&mut self, issuer: &[u8]) -> Vec<u8> {
        let records = 1 + self.below(3);
        let mut book = Vec::new();
        for _ in 0..records {
            let parameter = match self.below(8) {
                0..=3 => {
                    let account = self.text_around_limit();
                    self.limit_of(ACCOUNT_TAG, account)
                }
                4 if book.is_empty() => {
                    // Room for two records more, with two texts each.
                    let mut methods = b"m,".repeat((BOOK_OCTETS - 2_048) / 2);
                    methods.extend(self.text_around_limit());
                    self.limit_of(METHODS_TAG, methods)
                }
                _ => {
                    let methods = [self.text_around_limit(), self.text_around_limit()];
                    self.limit_of(METHODS_TAG, methods.join(&b','))
                }
            };
            book.extend(self.limited_grant(issuer, &[parameter]));
        }
        book
    }

    /// A grant of a top label with these parameters.
    fn limited_grant(&mut self, issuer: &[u8], parameters: &[Vec<u8>]) -> Vec<u8> {
        let tag = self.near_front(&[&b"issue"[..], b"issuewild"]);
        let value = [issuer, b";", &parameters.join(&b';')].concat();
        let rdata = [&[0, tag.len() as u8], tag, &value].concat();
        let owner = self.top_name();
        self.record_of(owner, 257, 1, &rdata)
    }
}
