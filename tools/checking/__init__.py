"""What the tests of the tools have in common."""
