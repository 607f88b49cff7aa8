# Rules for GNU make. NAME.smallest is the smallest system that is equivalent to NAME.aut. NAME.kept is made if NAME.aut is equivalent to NAME.wanted.
# Both are for the RELATION, with the labels in the hide list HIDE internal, if HIDE names a file. Set the two variables beside the target, as in
# `make NAME.kept HIDE=tau.hide`. A target is made again if the relation or the contents of the hide list have changed: the file TARGET.asked has both.
RELATION = branching
HIDE =

.DELETE_ON_ERROR:
.SECONDEXPANSION:

question = { echo $(RELATION) && cat $(HIDE) /dev/null; }
# FORCE, which is always newer, unless the question is what it was when the target $(1) was made.
asked = $(if $(HIDE),$(if $(wildcard $(HIDE)),,$(error there is no hide list $(HIDE))))$(if $(shell $(question) | cmp -s - $(1).asked || echo no),FORCE)

%.smallest: %.aut $$(call asked,$$@)
	@rm -f $@.asked
	autbis min --relation $(RELATION)$(HIDE:%= --hide %) $< > $@
	@$(question) > $@.asked

%.kept: %.aut %.wanted $$(call asked,$$@)
	@rm -f $@ $@.asked
	autbis cmp --relation $(RELATION)$(HIDE:%= --hide %) $*.aut $*.wanted
	@$(question) > $@.asked
	touch $@

FORCE:
