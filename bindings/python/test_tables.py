"""Tests that the tables of terms and rules say what the library does, in both directions."""

from __future__ import annotations

import unittest

import running  # first: it keeps Python from writing beside the sources

import partyid
from partyid import RULES, TERMS, Reason, Verdict
from partyid.tables import LISTED, rule_of

SCHEMES = [f"{number:04}" for number in range(10000)]


class Tables(unittest.TestCase):
    def test_the_terms_are_those_that_a_rule_reads(self) -> None:
        read = {term for term in range(1000) if partyid.check("0088", term, "17").reason is not Reason.TERM}
        self.assertEqual([term.number for term in TERMS], sorted(read))
        for term in TERMS:
            self.assertEqual(partyid.check("0088", term.number, "17").rule, 40 if term.by_scheme else 562, term)

    def test_the_schemes_are_those_that_have_a_rule(self) -> None:
        terms = [term.number for term in TERMS if term.by_scheme]
        have = {(scheme, answer.rule) for scheme in SCHEMES for term in terms for answer in [partyid.check(scheme, term, "x")] if answer.verdict is not Verdict.NO_RULE}
        self.assertEqual({(rule.scheme, rule.number) for rule in RULES if rule.scheme}, have)

    def test_every_example_is_accepted_by_its_rule(self) -> None:
        for rule in RULES:
            answer = partyid.check(rule.scheme, 34 if rule.scheme else 31, rule.example)
            self.assertEqual((answer.rule, answer.accepted), (rule.number, True), rule)

    def test_what_is_asked_for_says_how_long_the_example_is(self) -> None:
        for rule in RULES:
            digits = sum(character.isdigit() for character in rule.example)
            if rule.number not in (40, 44, 45, 561, 562):
                self.assertIn(f"{digits} digits", rule.asks)

    def test_the_listed_schemes_are_those_that_can_be_listed(self) -> None:
        can = {scheme for scheme in SCHEMES if self.reason(scheme) is not Reason.SCHEME}
        self.assertEqual(set(LISTED), can)
        for scheme in LISTED:
            self.assertIn(scheme, Reason.SCHEME.words)

    def reason(self, scheme: str) -> Reason:
        with self.assertRaises(partyid.Refusal) as caught:
            partyid.corrections(scheme, "x")
        return caught.exception.reason

    def test_which_numbers_are_listed(self) -> None:
        for rule in RULES:
            for digits in range(1, 25) if rule.listed else ():
                try:
                    partyid.corrections(rule.scheme, "1" * digits)
                    can = True
                except partyid.Refusal as refusal:
                    can = refusal.reason is Reason.GOOD
                self.assertEqual(can, 1 <= digits <= 20 if rule.scheme == "0088" else rule.listed == f"{digits} digits", (rule.scheme, digits))

    def test_a_rule_is_found_by_its_number(self) -> None:
        self.assertEqual([rule_of(rule.number) for rule in RULES], list(RULES))
        self.assertIsNone(rule_of(0))


if __name__ == "__main__":
    unittest.main()
