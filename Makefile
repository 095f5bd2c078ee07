# `make install PREFIX=/usr/local` puts the program that ./bprice runs, its man page, bash's completion and the tools in place, and
# `make uninstall` takes exactly these away. DESTDIR names a folder below which a package is laid out. Nothing is proved or built.
# The tools need Python 3.10 and its standard library; beside that bprice-draw matplotlib and graphviz, the PuLP class PuLP, and
# bprice-farm GNU parallel or Slurm.

PREFIX = /usr/local
at = $(DESTDIR)$(PREFIX)
completions = $(at)/share/bash-completion/completions
lib = $(at)/share/bprice
tools = $(wildcard tools/bprice-run tools/bprice_*.py tools/bprice-explain tools/bprice-draw tools/check_certificate.py tools/to_vipr.py farm/run farm/work farm/*.py \
    integrations/pulp/bprice_pulp.py integrations/python/bprice/*.py)
links = bprice-run:tools/bprice-run bprice-explain:tools/bprice-explain bprice-draw:tools/bprice-draw bprice-check-certificate:tools/check_certificate.py \
    bprice-to-vipr:tools/to_vipr.py bprice-farm:farm/run
modules = tools/__pycache__ integrations/pulp/__pycache__ integrations/python/bprice/__pycache__
folders = $(modules) integrations/pulp integrations/python/bprice integrations/python integrations tools farm release .

help:
	@echo 'make install PREFIX=/usr/local, make uninstall PREFIX=/usr/local, make sign KEY=name'

install:
	program=$$(release/which.sh) && install -D -m 755 "$$program" "$(at)/bin/bprice"
	install -D -m 644 docs/bprice.1 "$(at)/share/man/man1/bprice.1"
	install -D -m 644 completion/bprice "$(completions)/bprice"
ifneq ($(tools),)
	set -e; for file in $(tools); do mode=644; [ ! -x "$$file" ] || mode=755; install -D -m $$mode "$$file" "$(lib)/$$file"; done
	install -D -m 755 tools/installed.sh "$(lib)/release/which.sh"
	ln -sf ../../bin/bprice "$(lib)/bprice"
	set -e; for link in $(links); do ln -sf "../share/bprice/$${link#*:}" "$(at)/bin/$${link%%:*}"; done
endif

uninstall:
	rm -f "$(at)/bin/bprice" "$(at)/share/man/man1/bprice.1" "$(completions)/bprice"
ifneq ($(tools),)
	for link in $(links); do rm -f "$(at)/bin/$${link%%:*}"; done
	for file in $(tools) release/which.sh bprice; do rm -f "$(lib)/$$file"; done
	for folder in $(modules); do rm -f "$(lib)/$$folder"/*.pyc; done
	for folder in $(folders); do [ ! -d "$(lib)/$$folder" ] || rmdir --ignore-fail-on-non-empty "$$(readlink -f "$(lib)/$$folder")"; done
endif

# Signs release/SHA256SUMS with the owner's key, which GnuPG has: the one that KEY names, or its default.
sign:
	release/sign.sh $(KEY)

.PHONY: help install uninstall sign
