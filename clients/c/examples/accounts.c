/* Accounts whose sum stays what it is, whatever happens to the machine in the middle of a transfer.
   usage: accounts VOLUME [TRANSFERS]      a volume made by: famsync format VOLUME bank=8192 */
#include <famsync.h>
#include <stdio.h>
#include <stdlib.h>

struct account {
    long balance, transfers;
};

static void must(int code)
{
    if (code != FAMSYNC_OK) {
        fprintf(stderr, "accounts: %s\n", famsync_error(NULL));
        exit(1);
    }
}

int main(int count, char **words)
{
    famsync *volume;
    famsync_memory *memory;
    long sum = 0, made = 0, transfers = count > 2 ? atol(words[2]) : 0;
    must(famsync_open(count > 1 ? words[1] : "bank.vol", NULL, &volume));
    must(famsync_memory_open(volume, "bank", &memory));
    struct account *accounts = famsync_memory_at(memory);
    int number = (int)(famsync_memory_length(memory) / sizeof *accounts);
    for (long i = 0; i < transfers; i++) {
        struct account *from = &accounts[rand() % number], *to = &accounts[rand() % number];
        from->balance -= 7, from->transfers++;
        to->balance += 7;
        must(famsync_msync(volume, NULL)); /* both or neither */
    }
    for (int i = 0; i < number; i++)
        sum += accounts[i].balance, made += accounts[i].transfers;
    printf("sum %ld, %ld transfers\n", sum, made);
    must(famsync_memory_close(memory));
    must(famsync_close(volume));
    return 0;
}
