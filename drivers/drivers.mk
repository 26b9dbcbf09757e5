# drivers.mk: `include path/to/drivers/drivers.mk`, set DRIVER_SOURCES, then `make drivers-test`.
DRIVERS_RUN := $(dir $(lastword $(MAKEFILE_LIST)))run
DRIVER_SEEDS ?= 1..8
DRIVER_THREADS ?= 4
.PHONY: drivers-test
drivers-test:
	$(DRIVERS_RUN) $(DRIVER_SOURCES)
	$(DRIVERS_RUN) --threads $(DRIVER_THREADS) --seeds $(DRIVER_SEEDS) $(DRIVER_SOURCES)
