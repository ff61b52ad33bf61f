"""What Prometheus reads."""

from __future__ import annotations

from prometheus_client import CollectorRegistry, Counter, Gauge, Histogram, generate_latest

CONTENT_TYPE = "text/plain; version=0.0.4; charset=utf-8"
# Seconds; a publish waits for the disk.
_BUCKETS = (0.001, 0.002, 0.005, 0.01, 0.02, 0.05, 0.1, 0.2, 0.5, 1, 2, 5, 10)


class Metrics:
    """The numbers of a registry."""

    def __init__(self) -> None:
        self._all = CollectorRegistry()
        self.requests = self._counter("requests", "Requests that were answered", "call", "status")
        self.seconds = Histogram(
            "weoldrin_request_seconds", "Their time", ["call"], buckets=_BUCKETS, registry=self._all
        )
        self.problems = self._counter("problems", "Requests that were refused", "name")
        self.records = self._counter("records", "Records that were published", "kind")
        self.failed_checkpoints = self._counter("failed_checkpoints", "Checkpoints that were not made")
        self.leaves = self._gauge("leaves", "Leaves of the registry's log")
        self.checkpoint_leaves = self._gauge("checkpoint_leaves", "Leaves of the newest checkpoint")
        self.checkpoint_time = self._gauge("checkpoint_timestamp_seconds", "The newest checkpoint's time")
        self.handles = self._gauge("handles", "Logs in memory")
        self.handle_bytes = self._gauge("handle_bytes", "What they may take")

    def _counter(self, name: str, text: str, *labels: str) -> Counter:
        return Counter(f"weoldrin_{name}", text, labels, registry=self._all)

    def _gauge(self, name: str, text: str) -> Gauge:
        return Gauge(f"weoldrin_{name}", text, registry=self._all)

    def text(self) -> bytes:
        """All of them."""
        return generate_latest(self._all)
