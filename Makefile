# make test   every proof, every must-fail edit, every program, and the tests in C and Rust; the last line is 'N passed, 0 failed'
# make demo   a unit that is cut forty times; its memories are left in target/demo
# make hosts  the tests in C and Rust alone
# make bench  times, stack and size of the code beside other libraries, written to docs/PERFORMANCE.md (needs Debian and gcc)

SHELL := /bin/bash
.PHONY: test demo hosts bench kit

# rt ci goes first; its last line is held back until the tests in C and Rust have passed too. An edit that can't be applied fails as well.
test: kit
	@log=$$(mktemp); trap 'rm -f "$$log"' EXIT; set -o pipefail; \
	rt ci | tee "$$log" | sed -u '$$d' || { tail -n 1 "$$log"; exit 1; }; \
	if grep -qE '^rt: ok.*, [1-9][0-9]* bad' "$$log"; then echo 'FAILED: a must-fail edit is a BAD EDIT'; exit 1; fi; \
	hosts/test && tail -n 1 "$$log"

hosts: kit
	@hosts/test

demo: kit
	@mkdir -p target/demo
	@hosts/build power_cuts ringview hex_export hex_import bench_trace ring_shapes_view factory_view chain_view settings_view
	@target/bin/power_cuts target/demo/ring.bin target/demo/fram.bin
	@printf '\nThe memories as the last cut left them:\n'
	@echo '    xxd -g 4 -c 20 target/demo/fram.bin'
	@echo '    target/bin/ringview < target/demo/ring.bin'
	@target/bin/ringview < target/demo/ring.bin

bench: kit
	@hosts/build keeper_c hex_export hex_import
	@sh hosts/bench/run.sh

kit:
	@command -v rt > /dev/null || { echo "rt, the command of the Rattle kit, is missing: unpack the kit and put its bin folder on the PATH" >&2; exit 1; }
