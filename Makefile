# README.md says what each target prints. Targets may run side by side: tools/build lets one build at a time write target/.
.PHONY: run test lib bench install uninstall clean help

run: ## builds the listing program and prints the bench scan's line
	@tools/run

test: ## the gate: proves everything and runs every check
	@tools/test

lib: ## builds the library, static and shared, and prints where it is
	@tools/lib

bench: ## measures speed: the proved code against the same by hand, the command against the program
	@tools/bench

# PREFIX and DESTDIR of the command line reach the script through the environment.
install: ## installs below PREFIX (/usr/local if it is left out), with DESTDIR before it
	@tools/install

uninstall: ## removes what install installs, with the same PREFIX and DESTDIR
	@tools/install --remove

clean: ## removes what builds have written and what Python has compiled
	@rm -rf target crates/*/out compare/target python/*/__pycache__

help: ## prints these lines
	@awk -F ': ## ' '/^[a-z]+: ## / { printf "make %-9s  %s\n", $$1, $$2 }' Makefile
