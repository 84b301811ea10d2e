"""A classroom on one machine: one page, and the checks behind it."""
