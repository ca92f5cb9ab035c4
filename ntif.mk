# For a driver's Makefile (GNU make): how to find ntif.h and libntif.a, and how the archive is made.
#
#     include path/to/this/ntif.mk
#     driver: driver.c $(NTIF_LIB)
#             $(CC) $(CFLAGS) $(NTIF_CFLAGS) -o $@ $< $(NTIF_LIB)
#
# NTIF_DIR     the folder that this file stands in
# NTIF_CFLAGS  what the compiler needs to find ntif.h
# NTIF_LIB     the archive; as a prerequisite it's made where it's missing or where code has changed
# NTIF_RT      the toolchain's command, rt unless it's set
#
# The first target of the including Makefile stays the default one.
NTIF_GOAL := $(.DEFAULT_GOAL)
NTIF_DIR := $(patsubst %/,%,$(dir $(lastword $(MAKEFILE_LIST))))
NTIF_RT ?= rt
NTIF_CFLAGS := -I$(NTIF_DIR)/include
NTIF_LIB := $(NTIF_DIR)/target/staticlib/libntif.a

$(NTIF_LIB): $(NTIF_DIR)/crates.txt $(wildcard $(NTIF_DIR)/crates/*/src/*.rt)
	NTIF_RT='$(NTIF_RT)' $(NTIF_DIR)/tools/build ntif

.DEFAULT_GOAL := $(NTIF_GOAL)
