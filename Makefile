# The commands of a day. Each is one line that you can type yourself; CONTRIBUTING.md says more.
.PHONY: help build try prove cases test test-all documents service unit package hooks clean

help: ## list these commands
	@sed -n 's/^\([a-z-]*\):.*## /\1\t/p' $(MAKEFILE_LIST) | expand -t 12

build: ## prove and build the program, and compile the C programs of the service
	./prefork --version && service/build

try: ## compile the program without its proofs, and rehearse a reload
	./try enact --from examples/a.toml --to examples/b.toml HUP </dev/null

prove: ## prove what changed
	ci/prove

cases: ## run the cases on the proved program
	ci/cases

test: ## the gate: what a change must pass
	ci/test

test-all: ## the gate with every edit: before a release
	ci/test --all

documents: ## check the pages, the help and the man pages
	ci/documents

unit: ## run the unit tests of the service
	service/build && service/tests/run

service: ## run the service under load, with faults
	ci/service

package: ## write the package for Debian
	./package

hooks: ## have git look at the subject and the scripts of each commit
	git config core.hooksPath .githooks

clean: ## remove what was built
	rm -rf crates/*/out service/out
