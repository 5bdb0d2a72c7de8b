#!/bin/sh
# A host that fills in grant words of four octets by the header's names does not compile:
# old_table.sh WORKDIR
set -eu
work=$1

# Whether a source that names this compiles.
compiles() {
    printf '#include <tollmeander.h>\nuint32_t named(void);\nuint32_t named(void) { return %s; }\n' "$1" \
        > "$work/named.c"
    gcc -std=c99 -Wall -Wextra -Werror -Iinclude -c "$work/named.c" -o "$work/named.o"
}

compiles TOLLMEANDER_GRANT_WORD_SIZE
compiles TOLLMEANDER_GRANT_PAGE_BIT
for name in TOLLMEANDER_GRANT_SIZE TOLLMEANDER_GRANT_PAGE_SHIFT; do
    if compiles "$name" 2> /dev/null; then
        echo "a host that names $name compiles"
        exit 1
    fi
done
