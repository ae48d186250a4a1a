/* Transactions: from its beginning until its commit or its rollback succeeds, nothing else commits or undoes changes.
 */
#include "inside.h"

static int begin(famsync *handle, uint64_t *transaction)
{
    if (handle->volume.readonly)
        return FAMSYNC_READONLY;
    if (handle->transaction > 0)
        return FAMSYNC_TRANSACTION;
    if (handle->torn)
        return FAMSYNC_TORN;
    *transaction = handle->transaction = ++handle->transactions;
    return FAMSYNC_OK;
}

int famsync_transaction_begin(famsync *handle, uint64_t *transaction)
{
    int code = enter_unless(handle, transaction ? NULL : "`transaction` is a null pointer");
    if (code == FAMSYNC_OK)
        code = leave(handle, begin(handle, transaction));
    return answer(handle, __func__, code);
}

/* Enters at a moment when no group is open, for a commit or a rollback. */
static int enter_to_end(famsync *handle)
{
    int code = check_no_group(handle);
    return code == FAMSYNC_OK ? enter_between_groups(handle) : code;
}

/* Whether a call may end the transaction with this number. It may have ended by a rollback. */
static int check_number(const famsync *handle, uint64_t transaction)
{
    if (handle->volume.readonly)
        return FAMSYNC_READONLY;
    if (transaction == 0 || transaction > handle->transactions)
        return explain(FAMSYNC_ARGUMENT, "no transaction had the number %llu", (unsigned long long)transaction);
    return handle->transaction == 0 || handle->transaction == transaction ? FAMSYNC_OK : FAMSYNC_TRANSACTION;
}

static bool has_changes(famsync *handle)
{
    return handle->torn || handle->resized || famsync_core_staged(handle->core, &handle->core.at) != 0 ||
           stored_pages(handle) > 0;
}

/* Changes that came after a rollback are only a part of what the program did in the transaction. */
static int commit_transaction(famsync *handle, uint64_t transaction, uint64_t *mark)
{
    int code = check_number(handle, transaction);
    if (code != FAMSYNC_OK)
        return code;
    *mark = atomic_load(&handle->acknowledged);
    if (handle->transaction == 0)
        return has_changes(handle) ? FAMSYNC_TORN : FAMSYNC_OK;
    code = commit_stores(handle, mark);
    if (code == FAMSYNC_OK)
        handle->transaction = 0;
    return code;
}

int famsync_transaction_commit(famsync *handle, uint64_t transaction, uint64_t *mark)
{
    uint64_t number = 0;
    int code = enter_to_end(handle);
    if (code == FAMSYNC_OK)
        code = leave_between_groups(handle, commit_transaction(handle, transaction, &number));
    if (code == FAMSYNC_OK && mark)
        *mark = number;
    return answer(handle, __func__, code);
}

static int roll_back_transaction(famsync *handle, uint64_t transaction)
{
    int code = check_number(handle, transaction);
    if (code == FAMSYNC_OK)
        code = roll_back(handle);
    if (code == FAMSYNC_OK)
        handle->transaction = 0;
    return code;
}

int famsync_transaction_rollback(famsync *handle, uint64_t transaction)
{
    int code = enter_to_end(handle);
    if (code == FAMSYNC_OK)
        code = leave_between_groups(handle, roll_back_transaction(handle, transaction));
    return answer(handle, __func__, code);
}
