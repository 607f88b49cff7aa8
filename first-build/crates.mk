# Proves once each crate that the goal depends on, and the goal. first-build/build runs these rules, and exports the variables of first-build/prove.
include crates.txt
crates := $(notdir $(wildcard crates/*))
.PHONY: $(crates)

$(crates):
	@first-build/prove $@ $^

# A library that is no crate here belongs to the kit.
.DEFAULT:
	@:
