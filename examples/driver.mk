# The C example as a driver's build has it, from any folder:
#
#     make -f path/to/examples/driver.mk
#
# It leaves `driver` in the folder that it was called in.
HERE := $(dir $(lastword $(MAKEFILE_LIST)))
include $(HERE)../ntif.mk

CFLAGS ?= -O2 -std=c99 -Wall -Wextra -Werror

driver: $(HERE)driver.c $(NTIF_DIR)/include/ntif.h $(NTIF_LIB)
	$(CC) $(CFLAGS) $(NTIF_CFLAGS) -o $@ $< $(NTIF_LIB)
