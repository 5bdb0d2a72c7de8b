# What c.mk and bench.mk have in common: where things are, and how C is compiled.

TOLLMEANDER_LIB ?= target/staticlib/libtollmeander.a
BUILD ?= build

CC := gcc
C_STANDARD := -std=c11
C_WARNINGS := -Wall -Wextra -Wpedantic -Wshadow -Wconversion -Werror
C_INCLUDES := -Iinclude -Ihost -Iguest -Itests
C_FLAGS := $(C_STANDARD) $(C_WARNINGS) $(C_INCLUDES) -MMD -MP

# V=1 shows the commands.
SAY = $(if $(V),,@echo "  $@";)

# What depends on it is made anew each time.
.PHONY: FORCE
