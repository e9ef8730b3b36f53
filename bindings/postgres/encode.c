/* Encoding the items of a group in such a way that the statement can be cancelled meanwhile.
 *
 * A call of the library can't be cut short, and that of a large group takes seconds. So it runs on a thread, while the
 * backend looks for interrupts. The thread touches nothing but its task and the library, and gets no signals. Where the
 * statement ends before the call, the thread gives the task back once the call has ended. A backend has one such thread
 * at most.
 */
#include "value.h"

#include <miscadmin.h>
#include <pthread.h>
#include <signal.h>
#include <stdatomic.h>
#include <stdlib.h>

enum { FEW_ITEMS = 1 << 20 }; /* so many are encoded without a thread: that takes less than a tenth of a second */

struct task {
    flcol_array plain;
    flcol_array encoded;
    bool has_scheme;
    size_t scheme_len;
    char scheme[COLUMN_SCHEME];
    int32_t status;
    atomic_bool is_left; /* by the backend or by the thread, unless there is none: who leaves it then gives it back */
};

/* Whether a thread works, for this statement or for one that has ended. */
static atomic_bool is_busy;

static void leave(void *left) {
    struct task *task = left;
    if (!atomic_exchange(&task->is_left, true)) return;
    flcol_free(&task->plain);
    flcol_free(&task->encoded);
    free(task);
}

/* A task of these items, which the backend leaves with the current memory context. */
static struct task *new_task(const struct builder *items) {
    MemoryContextCallback *callback = palloc0(sizeof *callback);
    struct task *task = calloc(1, sizeof *task);
    if (task == NULL) refuse(FLCOL_OUT_OF_MEMORY);
    atomic_init(&task->is_left, true);
    callback->func = leave;
    callback->arg = task;
    MemoryContextRegisterResetCallback(CurrentMemoryContext, callback);
    task->has_scheme = items->scheme != NULL;
    task->scheme_len = items->scheme_len;
    if (task->has_scheme) memcpy(task->scheme, items->scheme, items->scheme_len);
    check(builder_plain(items, 0, items->len, &task->plain));
    return task;
}

static void work(struct task *task) {
    const char *scheme = task->has_scheme ? task->scheme : NULL;
    task->status = encode_by(&task->plain, scheme, task->scheme_len, &task->encoded);
    flcol_free(&task->plain);
}

static void *work_on_thread(void *task) {
    work(task);
    leave(task);
    atomic_store(&is_busy, false);
    return NULL;
}

/* Has a thread work, if one can be had. */
static bool start(struct task *task) {
    pthread_t thread;
    sigset_t all, before;
    sigfillset(&all);
    atomic_store(&task->is_left, false);
    atomic_store(&is_busy, true);
    pthread_sigmask(SIG_SETMASK, &all, &before);
    const bool is_started = pthread_create(&thread, NULL, work_on_thread, task) == 0;
    pthread_sigmask(SIG_SETMASK, &before, NULL);
    if (is_started) {
        pthread_detach(thread);
    } else {
        atomic_store(&task->is_left, true);
        atomic_store(&is_busy, false);
    }
    return is_started;
}

/* Waits until no thread works. */
static void wait_for_thread(void) {
    while (atomic_load(&is_busy)) {
        CHECK_FOR_INTERRUPTS();
        pg_usleep(1000);
    }
}

flcol_array *encoded_items(const struct builder *items) {
    if (items->len > FEW_ITEMS) wait_for_thread();
    struct task *task = new_task(items);
    if (items->len > FEW_ITEMS && start(task)) {
        wait_for_thread();
    } else {
        work(task);
    }
    check(task->status);
    return &task->encoded;
}
