# What people run here. The proofs, tests and edits are the toolchain's; see README.md.
.PHONY: test examples

# Every proof, must-fail edit, test and program; the last line is 'N passed, 0 failed'.
test:
	@tools/gate

# The worked examples: rounds, counts of pairs and answers of small tables, proved over the definitions.
examples:
	@rt ci examples
