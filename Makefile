# make demo       builds the proved program, and prints the reports of the sample capture and of the sample network
# make try        runs the job of the sample network within two minutes and proves nothing: a first look, no more
# make test       the gate: every proof, edit, test and program, then the repository's own checks
# make install    puts the built program, its manual page and completions, the documents, the schema of jobs, the
#                 samples and the tools below PREFIX (and below DESTDIR, where that is set)
# make uninstall  removes what make install put there
# make deb        makes a Debian package of the same files below build/
PREFIX ?= /usr/local
SAMPLE = samples/one-link.pcap
NETWORK = samples/network
SITE = samples/site
PROGRAM = crates/dshark_cli/out/dshark_cli
TRIED = job.json s1.pcap s2.pcap s3.pcapng s4.pcap

# Below PREFIX: the program and its manual page have names of their own, and each other file keeps its name in a folder
# of dshark.
ROOT = $(DESTDIR)$(PREFIX)
SHARE = share/dshark
DOCUMENTS = share/doc/dshark
ZSH = share/zsh/site-functions
COMPLETIONS = share/bash-completion/completions $(ZSH) share/fish/vendor_completions.d
TOOLS = tools/preflight tools/explain tools/report tools/plot-report tools/shard tools/merge-reports

# The package has the version of the program, and needs the C library with the newest symbol that the program names.
BUILD = build
VERSION = $(shell '$(PROGRAM)' --version | cut -d ' ' -f 2)
ARCHITECTURE = $(shell dpkg --print-architecture)
LIBC = $(shell grep -ao 'GLIBC_2[.][0-9]*' '$(PROGRAM)' | sort -uV | tail -n 1 | cut -d _ -f 2)
DEPENDS = libc6$(if $(LIBC), (>= $(LIBC)))$(if $(shell ldd '$(PROGRAM)' 2>/dev/null | grep libgcc_s),$(COMMA) libgcc-s1)
COMMA := ,

.PHONY: demo try test install uninstall deb

# `rt run` proves the program and the crates below it, builds it, and runs it with the words after `--`.
demo:
	cd crates/dshark_cli && rt run -- count 'ipv4[0].id' 1000000 ../../$(SAMPLE)
	cd $(NETWORK) && '$(CURDIR)/$(PROGRAM)' central job.json
	cd $(NETWORK) && '$(CURDIR)/$(PROGRAM)' central drop.json

# `rt try` runs the program with no proof, in a new folder with a copy of each file that --data names.
try:
	@echo 'make try: this run is not proved; make demo proves the program first'
	cd crates/dshark_cli && timeout 120 rt try $(foreach file,$(TRIED),--data $(file)=../../$(NETWORK)/$(file)) -- central job.json

test:
	.ci/run

# Run `make demo` first: it builds what is installed.
install:
	@test -x $(PROGRAM) || { echo 'make install: run make demo first, which builds the program' >&2; exit 1; }
	install -d $(foreach folder,$(COMPLETIONS),'$(ROOT)/$(folder)')
	install -d '$(ROOT)/bin' '$(ROOT)/share/man/man1' '$(ROOT)/$(DOCUMENTS)/docs' '$(ROOT)/$(SHARE)/$(NETWORK)' '$(ROOT)/$(SHARE)/$(SITE)' '$(ROOT)/$(SHARE)/tools'
	install -m 755 $(PROGRAM) '$(ROOT)/bin/dshark'
	install -m 644 docs/dshark.1 '$(ROOT)/share/man/man1/dshark.1'
	install -m 644 completions/dshark.bash '$(ROOT)/$(word 1,$(COMPLETIONS))/dshark'
	install -m 644 completions/_dshark '$(ROOT)/$(word 2,$(COMPLETIONS))'
	install -m 644 completions/dshark.fish '$(ROOT)/$(word 3,$(COMPLETIONS))'
	install -m 644 README.md CHANGELOG.md CONTRIBUTING.md SECURITY.md LICENSE '$(ROOT)/$(DOCUMENTS)'
	install -m 644 $(wildcard docs/*.md) '$(ROOT)/$(DOCUMENTS)/docs'
	install -m 644 docs/job.schema.json '$(ROOT)/$(SHARE)'
	install -m 644 $(wildcard samples/*.*) '$(ROOT)/$(SHARE)/samples'
	install -m 644 $(wildcard $(NETWORK)/*.*) '$(ROOT)/$(SHARE)/$(NETWORK)'
	install -m 644 $(wildcard $(SITE)/*.*) '$(ROOT)/$(SHARE)/$(SITE)'
	install -m 755 $(TOOLS) '$(ROOT)/$(SHARE)/tools'
	install -m 644 $(wildcard tools/*.py) '$(ROOT)/$(SHARE)/tools'

# These folders hold nothing but what was installed; those of all programs stay.
uninstall:
	rm -f '$(ROOT)/bin/dshark' '$(ROOT)/share/man/man1/dshark.1' $(foreach folder,$(COMPLETIONS),$(foreach name,dshark _dshark dshark.fish,'$(ROOT)/$(folder)/$(name)'))
	rm -rf '$(ROOT)/$(DOCUMENTS)' '$(ROOT)/$(SHARE)'

# Files and folders belong to root in the package, whoever makes it.
deb:
	@command -v dpkg-deb >/dev/null || { echo 'make deb: dpkg-deb is not installed' >&2; exit 1; }
	rm -rf '$(BUILD)/deb'
	$(MAKE) --no-print-directory install DESTDIR='$(abspath $(BUILD))/deb' PREFIX=/usr ZSH=share/zsh/vendor-completions
	gzip -9n '$(BUILD)/deb/usr/share/man/man1/dshark.1'
	install -m 644 LICENSE '$(BUILD)/deb/usr/$(DOCUMENTS)/copyright'
	install -d '$(BUILD)/deb/DEBIAN'
	printf '%s\n' 'Package: dshark' 'Version: $(VERSION)' 'Architecture: $(ARCHITECTURE)' 'Section: net' 'Priority: optional' \
	    'Maintainer: Guzhavip maintainers <maintainers@users.noreply.guzhavip.example>' 'Depends: $(DEPENDS)' 'Recommends: python3' \
	    'Suggests: tshark, parallel, python3-matplotlib' 'Description: finds lost, looped and rewritten packets in captures' \
	    ' Reads captures of several points of one network, finds the copies of each' \
	    ' packet, bare or in a tunnel, and says which were lost, went in circles, left' \
	    ' their path or were rewritten as they should not be, and where.' >'$(BUILD)/deb/DEBIAN/control'
	dpkg-deb --root-owner-group --build '$(BUILD)/deb' '$(BUILD)/dshark_$(VERSION)_$(ARCHITECTURE).deb'
