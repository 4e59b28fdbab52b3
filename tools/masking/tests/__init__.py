"""Tests of the package, a module for each of its modules, and of the commands that use it; tools/test-sheet runs them all."""
