# The usual targets for the scripts of this folder: make, make install PREFIX=/usr/local DESTDIR=, make uninstall, make check (or test). PREFIX may
# also be given as `prefix`.

all:
	@printf 'des (0, 0, 1)\n' | ./autbis min >/dev/null

install:
	@place=$${PREFIX:-$$prefix}; ./install $${place:+"$$place"}

uninstall:
	@place=$${PREFIX:-$$prefix}; ./install --remove $${place:+"$$place"}

check test:
	@./check

.PHONY: all install uninstall check test
