# run: the main job on the shipped frame. test: the gate (`rt ci` and the host side), which ends with the line 'N passed, 0 failed'.
.PHONY: run test

run:
	host/run

test:
	host/gate
