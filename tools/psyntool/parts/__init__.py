"""Specifications in parts: small automata that are assumed or guaranteed, and the one automaton composed of them."""
