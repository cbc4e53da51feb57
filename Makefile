# The two commands: `make run` shows a search, `make test` is the gate.
.PHONY: run test

# Proves what the entry program stands on, links it, and runs it on the sample searches.
run:
	@mkdir -p target && cd crates/search && rt run -- --help > ../../target/run.log 2>&1 || { tail -n 20 ../../target/run.log; exit 1; }
	@cd crates/search/data && ../out/search $$(cat ../args)

# Exactly what the gate runs.
test:
	@bash .ci/run
