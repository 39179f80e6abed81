"""What the suites of tests/ are made of."""
