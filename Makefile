# The demonstration and the gate. RT is the toolchain's command; SCRIPT is the script that is played.
RT ?= rt
SCRIPT ?= demo/lunch.script

.PHONY: demo test

# Plays the script, and shows each line with its answer beside it. Ends with the status of the program.
demo:
	@RT="$(RT)" demo/play.sh "$(SCRIPT)"

test:
	$(RT) ci
