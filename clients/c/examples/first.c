/* The example of the README as a program, which never ends: kill it, and look at the volume with `famsync dump`.
   A volume for it: famsync format bank.vol bank=8192 */
#include <famsync.h>

int main(void)
{
    famsync *volume;
    famsync_memory *memory;
    if (famsync_open("bank.vol", NULL, &volume) != FAMSYNC_OK)
        return 1;
    if (famsync_memory_open(volume, "bank", &memory) != FAMSYNC_OK)
        return 1;
    long *balance = famsync_memory_at(memory);
    for (;;) {
        balance[3] -= 7;
        balance[9] += 7;
        if (famsync_msync(volume, NULL) != FAMSYNC_OK) /* both or neither, whatever happens to the machine */
            return 1;
    }
}
