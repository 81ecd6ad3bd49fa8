"""The version, which `make generate` writes here from crates/recode_words/src/command.rt."""

__version__ = "0.1.0"
