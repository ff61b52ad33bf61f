"""A registry of Warg packages over HTTP, whose answers can be checked; docs/HTTP.md says what it answers."""

__version__ = "0.1.0"
