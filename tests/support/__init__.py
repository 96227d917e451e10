"""The modules that the tests and the benches share: tests/README.md says which module has what."""
