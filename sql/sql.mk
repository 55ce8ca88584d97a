# The functions of SQL over the library: an extension of SQLite in sql/sqlite/out, and one of PostgreSQL in
# sql/postgres/out.
.PHONY: extensions sqlite install-sqlite uninstall-sqlite postgres install-postgres uninstall-postgres

SQLITE = sql/sqlite/out/aclck.so
SQLITEDIR = $(LIBDIR)/sqlite
PG_CONFIG ?= pg_config
PGXS = $(MAKE) --no-print-directory -C sql/postgres/out -f $(CURDIR)/sql/postgres/Makefile PG_CONFIG='$(PG_CONFIG)'

## sqlite             builds the extension of SQLite, in sql/sqlite/out, after `make library`
sqlite: $(SQLITE)

# The extension exports the name by which SQLite loads it, and none of the library's.
$(SQLITE): sql/sqlite/aclck.c sql/common/answers.h include/aclck.h $(MADE)/libaclck.a
	mkdir -p sql/sqlite/out
	$(CC) -std=c99 -O2 -fPIC -Wall -Wextra -shared -o $@ -Iinclude sql/sqlite/aclck.c $(MADE)/libaclck.a \
	  -Wl,-z,defs,-z,relro,-z,now,-z,noexecstack -Wl,--exclude-libs,ALL

## install-sqlite     installs the extension of SQLite below PREFIX, in lib/sqlite
install-sqlite: $(SQLITE)
	install -D -m 644 $(SQLITE) '$(SQLITEDIR)/aclck.so'

## uninstall-sqlite   removes what install-sqlite installs
uninstall-sqlite:
	rm -f '$(SQLITEDIR)/aclck.so'

## extensions         builds both extensions of SQL, or those whose headers are here; `make package` packs them
extensions:
	@if [ -f /usr/include/sqlite3ext.h ]; then $(MAKE) --no-print-directory sqlite; \
	else echo 'package: skipped libaclck-sqlite, because sqlite3ext.h is missing'; fi
	@if [ -f "$$($(PG_CONFIG) --includedir-server 2> /dev/null)/postgres.h" ]; then $(MAKE) --no-print-directory postgres; \
	else echo 'package: skipped postgresql-15-aclck, because postgres.h is missing'; fi

## postgres           builds the extension of PostgreSQL, in sql/postgres/out, after `make library`
postgres: $(MADE)/libaclck.a
	mkdir -p sql/postgres/out
	$(PGXS) all

## install-postgres   installs the extension where `pg_config`, or PG_CONFIG, says
install-postgres: postgres
	$(PGXS) install

## uninstall-postgres removes what install-postgres installs
uninstall-postgres:
	$(PGXS) uninstall
