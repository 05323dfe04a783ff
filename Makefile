# make run: build the engine and run it on the example; make test: the gate.
.PHONY: run test

run:
	cd crates/engine && rt run -- --input ../../examples/glacier.arrays ../../examples/glacier.txt

test:
	tools/gate.sh
