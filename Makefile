# The commands of the repository. Each works in a fresh clone with no other step. A line that begins
# with `#:` is a line of `make help`, which `make` alone prints too.

.DEFAULT_GOAL := help
.PHONY: help test judge judge-as trim lib bench soak readings moved

# The names of files reach the scripts through the environment, as they were typed: `make` would
# take a `$` for its own, and the shell a quote. SECONDS has another name there: some shells have a
# clock of that name.
override TRIP := $(value TRIP)
override RELEASE := $(value RELEASE)
override SECONDS := $(value SECONDS)
override KEEP := $(SECONDS)
export TRIP RELEASE KEEP

#: make help                          this list
help:
	@sed -n 's/^#: //p' Makefile

#: make judge TRIP=FILE               judge a trip
judge:
	@tools/judge "$$TRIP"

#: make judge-as RELEASE=1 TRIP=FILE  judge a trip as that release did
judge-as:
	@tools/judge-as "$$RELEASE" "$$TRIP"

#: make trim TRIP=FILE SECONDS=N      the first seconds of a trip as a stream: > OUT
trim:
	@tools/trim "$$TRIP" "$$KEEP"

#: make lib                           build the library for C, target/pierbracken/
lib:
	@tools/lib

#: make test                          prove and test everything, half an hour
test:
	@tools/test

#: make bench                         the speed of the library beside plain Rust
bench:
	@tools/bench

#: make soak                          the long comparison, a quarter of an hour
soak:
	@tools/soak

#: make readings                      the wrong readings that the tests tell
readings:
	@tools/readings

#: make moved                         what the newest release moved, on realistic trips
moved:
	@tools/moved
