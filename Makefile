# make demo       builds what it needs and shows the main job
# make test       proves everything, then runs all tests
# make bench      times the proved code against ordinary Rust; LOADS="window no-ops" for some loads only
# make install    puts the program, its manual page and the shells' completions below PREFIX
# make uninstall  removes them
.PHONY: demo test bench install uninstall build archive

CARGO = cargo --offline
HOST = --manifest-path host/Cargo.toml
PROGRAM = host/target/release/mitrophel

# DESTDIR stands before PREFIX while a package is made.
PREFIX = /usr/local
DESTDIR =
SHARE = $(DESTDIR)$(PREFIX)/share
INSTALLED_PROGRAM = $(DESTDIR)$(PREFIX)/bin/mitrophel
INSTALLED_MANUAL = $(SHARE)/man/man1/mitrophel.1
INSTALLED_BASH = $(SHARE)/bash-completion/completions/mitrophel
INSTALLED_ZSH = $(SHARE)/zsh/site-functions/_mitrophel
INSTALLED_FISH = $(SHARE)/fish/vendor_completions.d/mitrophel.fish

demo: archive
	@$(CARGO) run $(HOST) --release --quiet --bin mitrophel -- demo

test:
	@bash tools/test

bench: archive
	@$(CARGO) run $(HOST) --release --quiet --bin bench -- $(LOADS)

install: build
	install -D -m 755 "$(PROGRAM)" "$(INSTALLED_PROGRAM)"
	install -D -m 644 host/mitrophel.1 "$(INSTALLED_MANUAL)"
	"$(PROGRAM)" completion bash | install -D -m 644 /dev/stdin "$(INSTALLED_BASH)"
	"$(PROGRAM)" completion zsh | install -D -m 644 /dev/stdin "$(INSTALLED_ZSH)"
	"$(PROGRAM)" completion fish | install -D -m 644 /dev/stdin "$(INSTALLED_FISH)"

uninstall:
	rm -f "$(INSTALLED_PROGRAM)" "$(INSTALLED_MANUAL)" "$(INSTALLED_BASH)" "$(INSTALLED_ZSH)" "$(INSTALLED_FISH)"

build: archive
	@$(CARGO) build $(HOST) --target-dir host/target --release --quiet --bin mitrophel

# The proved archive, if it is out of date. Cargo would have it built too, but hides what is said meanwhile.
archive:
	@bash tools/archive
