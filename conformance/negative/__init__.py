"""The negative tests: pieces of wrong code that the prover has to refuse."""
