"""Comparisons with models, with the Rust and with other programs."""
