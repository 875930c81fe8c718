"""The tests of the built program: `pytest --tabd PATH` at the top. CONTRIBUTING.md, "Add a test", has the file for each kind of case."""
