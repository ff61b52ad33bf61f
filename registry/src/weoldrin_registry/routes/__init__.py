"""What the requests are answered with; docs/HTTP.md says it in words."""
