"""Stored cases and examples, and what they are made of."""
