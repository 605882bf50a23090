# Builds decl with the Rattle kit alone (`rt` on the path), and installs what was built. Nothing is downloaded.
PREFIX ?= /usr/local
PROGRAM := crates/decl/out/decl
SOURCES := crates.txt $(shell find crates -name out -prune -o -type f -print)
BIN := $(DESTDIR)$(PREFIX)/bin
SHARE := $(DESTDIR)$(PREFIX)/share
DOC := $(SHARE)/doc/decl
PACKAGES := build
INSTALLED := $(BIN)/decl $(SHARE)/man/man1/decl.1 $(SHARE)/bash-completion/completions/decl \
	$(SHARE)/zsh/site-functions/_decl $(SHARE)/fish/vendor_completions.d/decl.fish \
	$(SHARE)/vim/vimfiles/ftdetect/decl.vim $(SHARE)/vim/vimfiles/syntax/decl.vim
PAGES := README.md CHANGELOG.md CONTRIBUTING.md $(wildcard docs/*.md docs/*.svg docs/*.png)
EXAMPLES := $(wildcard examples/*.* examples/gallery/* examples/many/*)
CLIENTS := $(wildcard clients/r/*.* clients/r/R/* clients/r/man/* clients/r/tests/*) clients/r/DESCRIPTION clients/r/LICENSE \
	clients/r/NAMESPACE clients/r/.Rbuildignore clients/python/README.md clients/python/pyproject.toml $(wildcard clients/python/backend/*.py) \
	$(wildcard clients/python/src/decl/*.*) clients/check_steps.py clients/check_steps.c \
	clients/second_opinion.py $(wildcard clients/opinion/*.py)

.PHONY: all demo check test hostile opinion bench help install dist deb wheel uninstall clean

all: $(PROGRAM) ## proves and builds the program (the first time takes many minutes); it needs rt

$(PROGRAM): $(SOURCES)
	@.ci/build
	@touch $@

demo: $(PROGRAM) ## the same, and runs it on two examples, with a certificate
	@echo "decl: two dice, from examples/dice.decl"
	$(PROGRAM) run pmf:2 cdf:9 mean q:0.9 layer:5xs5 < examples/dice.decl
	@echo "decl: a portfolio of three units, from examples/portfolio.decl"
	$(PROGRAM) run --digits 4 mean q:0.99 tail:0.99 layer:100xs400 kappa:Motor:425 < examples/portfolio.decl
	@echo "decl: a certificate of the two dice (docs/STEPS.md)"
	@scripts/demo_certificate.sh $(PROGRAM)

check: $(PROGRAM) ## the tests without their proofs, and the clients, in minutes: it ends with 'N passed, M failed, K skipped'
	@.ci/test --quick

test: ## every proof, must-fail edit, test and program, and the clients: it ends with 'N passed, M failed, K skipped'
	@.ci/test

hostile: $(PROGRAM) ## failing outputs, broken texts and little memory, on the built program
	python3 scripts/hostile.py $(PROGRAM)

opinion: $(PROGRAM) ## COUNT (500) random calls of it and shares and shapes of BOOKS (100) books, each worked apart from it
	python3 clients/opinion_test.py $(or $(COUNT),500)
	python3 clients/every_share.py $(or $(BOOKS),100)
	python3 clients/any_shape.py $(or $(BOOKS),100)

# PAGE=docs/SPEED.md puts the table there, BUILDS="before=PROGRAM" measures others too.
bench: $(PROGRAM) ## times and memory beside C, numpy and R, as a table
	python3 bench/bench.py $(if $(PAGE),--page $(PAGE)) $(BUILDS)

help: ## this list
	@sed -n 's/^\([a-z]*\):.* ## /make \1\t/p' Makefile | expand -t 18

# A program that is older than the sources is installed as it is.
install: ## installs what was built under PREFIX (/usr/local), with pages, completions and colours for Vim; it builds nothing
	@test -x $(PROGRAM) || { echo "decl: there is no $(PROGRAM) to install: 'make' builds it" >&2; exit 1; }
	install -D -m 755 $(PROGRAM) "$(BIN)/decl"
	install -D -m 644 docs/decl.1 "$(SHARE)/man/man1/decl.1"
	install -D -m 644 share/decl.bash "$(SHARE)/bash-completion/completions/decl"
	install -D -m 644 share/decl.zsh "$(SHARE)/zsh/site-functions/_decl"
	install -D -m 644 share/decl.fish "$(SHARE)/fish/vendor_completions.d/decl.fish"
	install -D -m 644 share/vim/ftdetect/decl.vim "$(SHARE)/vim/vimfiles/ftdetect/decl.vim"
	install -D -m 644 share/vim/syntax/decl.vim "$(SHARE)/vim/vimfiles/syntax/decl.vim"
	@echo "pages, examples and clients to $(DOC)"
	@for file in $(PAGES) $(EXAMPLES) $(CLIENTS); do \
		mode=644; test ! -x "$$file" || mode=755; \
		install -D -m $$mode "$$file" "$(DOC)/$$file" || exit 1; \
	done

dist: ## a tarball of what install puts under a prefix, and its SHA256, in build
	@scripts/package $@ $(PROGRAM) $(PACKAGES)

deb: ## a package for Debian and Ubuntu, in build
	@scripts/package $@ $(PROGRAM) $(PACKAGES)

wheel: ## the Python client with the program inside, in build
	@scripts/package $@ $(PROGRAM) $(PACKAGES)

uninstall: ## removes what install has put under PREFIX
	rm -f $(foreach file,$(INSTALLED),"$(file)")
	rm -rf "$(DOC)"

clean: ## removes what was built and packed, and what rt check has kept
	rm -rf crates/*/out build
