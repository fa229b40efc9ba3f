"""Tests of the companion, over recorded answers of chpc. `companion/tests/run` runs them; `bench/companion` records
anew."""
