# The two commands of README.md, and what they are made of. The Rattle kit (rt), cargo, cc and python3 are all that is needed.
.PHONY: demo tool test compare bench clean

# The main job: prove what is claimed, run the programs on it, and show the tool at work.
demo:
	rt all check
	cd crates/vectors && rt run | cmp - stdout
	cd crates/layout && rt run | tee /dev/stderr | cmp - stdout
	tools/archives volume
	host/demo.sh

# The command-line tool, at host/tool/target/release/sangueko.
tool:
	tools/archives volume
	cargo build --release --offline --quiet --manifest-path host/tool/Cargo.toml

# The gate.
test:
	.ci/run

# What `make compare` runs: so many calls from a seed, or the calls of a file.
CALLS = 1000000
SEED = 1
REPLAY =

# Random calls through the library, document 01's model and the published Rust, and as many against plain arrays, with progress and rate; a difference is made small and
# written to a file.
compare:
	tools/archives volume
	cargo run --release --offline --quiet --manifest-path host/sangueko/Cargo.toml --example compare -- $(if $(REPLAY),--replay $(REPLAY),--seed $(SEED) --calls $(CALLS))

# The proved functions against plain Rust and the calls against the published Rust, as ratios.
bench:
	tools/archives probe
	cargo run --release --offline --quiet --manifest-path host/probe/Cargo.toml --bin bench
	tools/archives volume
	cargo bench --offline --quiet --manifest-path host/sangueko/Cargo.toml --bench refusals
	cargo run --release --offline --quiet --manifest-path host/bench/Cargo.toml

clean:
	rm -rf target crates/*/out host/target host/probe/target host/sangueko/target host/bench/target host/tool/target
