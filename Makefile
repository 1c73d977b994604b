# The two commands are `make run` and `make test`; `make help` lists the others.
.PHONY: help run test line lister rehearsal vectors fuzz badline cover bench fmt

help:
	@echo 'make run        build the card and its line program, and show two cards exchanging keys over a bad line'
	@echo 'make test       prove every crate, try every must-fail edit, run every test (half an hour and more)'
	@echo 'make line       build the line program: target/host/line --help'
	@echo 'make lister     list the messages on standard input, one to a line'
	@echo 'make rehearsal  two cards over lent rows exchange keys in memory'
	@echo 'make fuzz       the card beside a second program on generated input, until stopped'
	@echo 'make badline    two and three cards on a bad line, until stopped'
	@echo 'make cover      coverage-guided fuzzing of the C face, until stopped'
	@echo 'make bench      time, stack and size (no part of the tests)'
	@echo 'make fmt        lay out every .rt and .antt file'
	@echo 'make vectors    make the known answers anew with an independent library'

run:
	@bash host/build && target/host/chart

test:
	@bash tests/run

line:
	@bash host/build && echo 'built: target/host/line (--help tells all)'

lister:
	@bash host/start lister

rehearsal:
	@bash host/start rehearsal

fuzz:
	@bash tests/second/run fuzz

badline:
	@bash tests/second/run badline

cover:
	@bash tests/fuzz/run on

bench:
	@bash bench/run

fmt:
	@for crate in crates/*/; do (cd "$$crate" && rt fmt) || exit; done

vectors:
	@bash tests/host/vectors --write
