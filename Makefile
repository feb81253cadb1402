# What is typed most, by name. `make` alone lists it.
#
#   make check         the gate: every proof, and all tests (needs the kit)
#   make libraries     the libraries for C, in bindings/out (needs the kit)
#   make without-kit   all that needs no kit
#   make api           out/API.md: each name of headers, bindings and verifiers
help:
	@sed -n 's/^#   //p' Makefile

check:
	sh .ci/run

libraries:
	$(MAKE) -C bindings

without-kit:
	sh tests/without_kit

api:
	tools/api

.PHONY: help check libraries without-kit api
