"""Mates by checks: asking `usi_host mate`, problems with what is found of them, and a page of problems."""
