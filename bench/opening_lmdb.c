/* How long it takes LMDB to open an environment with a map of some size, beside bench/opening.c.

   usage: opening_lmdb FILE BYTES

   It prints one line: the microseconds of making and opening the environment and its table, and the kilobytes that the
   process's memory grew by and had at most; then the microseconds of 16 values of a page each and their commit. */
#include <lmdb.h>
#include <stdio.h>
#include <stdlib.h>
#include <string.h>

#include "opening.h"

static void want(int code, const char *what)
{
    if (code == 0)
        return;
    fprintf(stderr, "%s: %s\n", what, mdb_strerror(code));
    exit(1);
}

int main(int count, char **words)
{
    static char value[4000];
    MDB_env *environment;
    MDB_txn *transaction;
    MDB_dbi table;
    if (count != 3)
        return 2;
    long before = kilobytes("VmRSS");
    double began = now();
    want(mdb_env_create(&environment), "mdb_env_create");
    want(mdb_env_set_mapsize(environment, strtoull(words[2], NULL, 10)), "mdb_env_set_mapsize");
    want(mdb_env_open(environment, words[1], MDB_NOSUBDIR, 0666), "mdb_env_open");
    want(mdb_txn_begin(environment, NULL, 0, &transaction), "mdb_txn_begin");
    want(mdb_dbi_open(transaction, NULL, MDB_INTEGERKEY, &table), "mdb_dbi_open");
    want(mdb_txn_commit(transaction), "mdb_txn_commit");
    double opened = now();
    long grown = kilobytes("VmRSS") - before, most = kilobytes("VmHWM");
    double begins = now();
    want(mdb_txn_begin(environment, NULL, 0, &transaction), "mdb_txn_begin");
    for (int i = 0; i < 16; i++) {
        MDB_val key = {sizeof i, &i}, data = {sizeof value, value};
        memset(value, i + 1, sizeof value);
        want(mdb_put(transaction, table, &key, &data, 0), "mdb_put");
    }
    want(mdb_txn_commit(transaction), "mdb_txn_commit");
    printf("%.0f %ld %ld %.0f\n", opened - began, grown, most, now() - begins);
    mdb_env_close(environment);
    return 0;
}
