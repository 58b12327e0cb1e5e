# Doors: the scripts behind them do the work, and say how with --help.
PREFIX ?= $(HOME)/.local

.PHONY: build install check

# the program, proved first
build:
	@./dlk gen 1 >/dev/null

# dlk and dlkt below PREFIX
install:
	./dlk --install $(PREFIX)

# the gate
check:
	.ci/run
