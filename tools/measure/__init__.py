"""What measures the programs, and how sharp the suites are."""
