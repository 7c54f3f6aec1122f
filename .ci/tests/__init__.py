"""Tests of the gate's checks: `python3 .ci/gate unit` runs them."""
