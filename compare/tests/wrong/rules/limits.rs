//! The limits of RFC 8657 once more, with room for mistakes.

use compare::applicant::Applicant;
use compare::parameters::Parameter;

use super::mistake::Mistake;

pub fn limits_are_met(parameters: &[Parameter], applicant: Applicant) -> bool {
    if Mistake::LimitsAreIgnored.is_made() {
        return true;
    }
    let accounts = with_tag("accounturi", parameters);
    let methods = with_tag("validationmethods", parameters);
    if Mistake::OtherParametersForbid.is_made() && parameters.len() > accounts.len() + methods.len()
    {
        return false;
    }
    let account_is_met = accounts_are_met(&accounts, applicant.account);
    let method_is_met = methods_are_met(&methods, applicant.method);
    if Mistake::OneLimitMetIsEnough.is_made() && !accounts.is_empty() && !methods.is_empty() {
        return account_is_met || method_is_met;
    }
    account_is_met && method_is_met
}

fn with_tag<'p, 'a>(tag: &str, parameters: &'p [Parameter<'a>]) -> Vec<&'p Parameter<'a>> {
    let is_same = |parameter: &&Parameter| {
        let (own, tag) = (parameter.tag, tag.as_bytes());
        if Mistake::LimitTagsAreComparedByLetterCase.is_made() {
            own == tag
        } else if Mistake::LimitTagsAreComparedByFront.is_made() {
            own.to_ascii_lowercase().starts_with(tag)
        } else {
            own.eq_ignore_ascii_case(tag)
        }
    };
    parameters.iter().filter(is_same).collect()
}

fn accounts_are_met(accounts: &[&Parameter], account: &[u8]) -> bool {
    let is_met = |value: &[u8]| {
        if Mistake::AccountsFoldLetters.is_made() {
            value.eq_ignore_ascii_case(account)
        } else if Mistake::AccountsAreComparedByFront.is_made() {
            account.starts_with(value)
        } else if Mistake::AccountsAreComparedUpTo128Octets.is_made() {
            up_to_128_octets(value) == up_to_128_octets(account)
        } else if Mistake::AccountsArePartedByCommas.is_made() {
            value
                .split(|&octet| octet == b',')
                .any(|item| item == account)
        } else {
            value == account
        }
    };
    match accounts {
        _ if Mistake::AccountsAreIgnored.is_made() => true,
        [] => true,
        [one] => is_met(one.value),
        [first, .., last] => {
            Mistake::TwoAccountsOfWhichOneIsMet.is_made()
                && accounts.iter().any(|one| is_met(one.value))
                || Mistake::TwoAccountsThatAreBothMet.is_made()
                    && accounts.iter().all(|one| is_met(one.value))
                || Mistake::FirstOfTwoAccountsCounts.is_made() && is_met(first.value)
                || Mistake::LastOfTwoAccountsCounts.is_made() && is_met(last.value)
                || Mistake::TwoAccountsInOneLetterCaseForbid.is_made()
                    && first.tag != last.tag
                    && is_met(first.value)
        }
    }
}

/// The length and the front.
fn up_to_128_octets(text: &[u8]) -> (usize, &[u8]) {
    (text.len(), &text[..text.len().min(128)])
}

fn methods_are_met(methods: &[&Parameter], method: &[u8]) -> bool {
    let is_met = |value: &[u8]| is_among(value, method);
    match methods {
        _ if Mistake::MethodsAreIgnored.is_made() => true,
        [] => true,
        [one] => is_met(one.value),
        [first, .., last] => {
            Mistake::TwoMethodsOfWhichOneIsMet.is_made()
                && methods.iter().any(|one| is_met(one.value))
                || Mistake::TwoMethodsThatAreBothMet.is_made()
                    && methods.iter().all(|one| is_met(one.value))
                || Mistake::FirstOfTwoMethodsCounts.is_made() && is_met(first.value)
                || Mistake::LastOfTwoMethodsCounts.is_made() && is_met(last.value)
        }
    }
}

fn is_among(value: &[u8], method: &[u8]) -> bool {
    if value.is_empty() && Mistake::EmptyMethodsAreNoLimit.is_made() {
        return true;
    }
    if Mistake::MethodsAreNotPartedByCommas.is_made() {
        return value == method;
    }
    let value = match Mistake::MethodsUpTo255OctetsCount.is_made() {
        true => &value[..value.len().min(255)],
        false => value,
    };
    let mut items: Vec<&[u8]> = value.split(|&octet| octet == b',').collect();
    if Mistake::ItemsBehindTheMethodAreNotLookedAt.is_made() {
        if let Some(found) = items.iter().position(|item| *item == method) {
            items.truncate(found + 1);
        }
    }
    let last = items.len() - 1;
    let is_passed_over = |place: usize| {
        Mistake::EmptyItemsArePassedOver.is_made()
            || Mistake::EmptyItemAtTheFrontIsPassedOver.is_made() && place == 0
            || Mistake::EmptyItemAtTheEndIsPassedOver.is_made() && place == last
            || Mistake::EmptyItemWithinIsPassedOver.is_made() && place > 0 && place < last
    };
    let mut empty = (0..items.len()).filter(|&place| items[place].is_empty());
    if !empty.all(is_passed_over) {
        return false;
    }
    let is_same = |item: &&[u8]| {
        if Mistake::MethodsFoldLetters.is_made() {
            item.eq_ignore_ascii_case(method)
        } else if Mistake::MethodsAreComparedByFront.is_made() {
            method.starts_with(item)
        } else if Mistake::MethodsAreComparedUpTo128Octets.is_made() {
            up_to_128_octets(item) == up_to_128_octets(method)
        } else {
            *item == method
        }
    };
    if Mistake::FirstMethodAloneCounts.is_made() {
        items.first().is_some_and(is_same)
    } else if Mistake::LastMethodAloneCounts.is_made() {
        items.last().is_some_and(is_same)
    } else if Mistake::AllMethodsAreToBeMet.is_made() {
        items.iter().all(is_same)
    } else {
        items.iter().any(is_same)
    }
}
