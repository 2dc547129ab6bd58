# archive  proves and builds the archive libmerger.a; it and its header stand in target/merger/
# test     the style of the sources, and every test over the archive
# bench    the archive's times beside the independent implementation's

.PHONY: archive test bench

archive:
	cd crates/interface_c && rt lib
	mkdir -p target/merger
	cp crates/interface_c/out/libinterface_c.a target/merger/libmerger.a
	cp include/merger.h target/merger/

test:
	tools/check_style
	tests/run

bench: archive
	MERGER_LIB_DIR=$(CURDIR)/target/merger CARGO_TARGET_DIR=$(CURDIR)/target/cargo \
		cargo run --quiet --release --locked --offline --manifest-path bench/Cargo.toml
