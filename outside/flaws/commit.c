/* commit FLAW: two threads each append a word to the file `log` of the folder in which it is started, and say `stored WORD` once it lasts. A third
   syncs the file for both, and then the folder. Whoever appends holds the lock, and the others wait for it meanwhile. */
#include "flaw.h"
#include <pthread.h>
#include <stdatomic.h>

enum { STORING = 2 };

static pthread_mutex_t lock = PTHREAD_MUTEX_INITIALIZER;
static pthread_cond_t changed = PTHREAD_COND_INITIALIZER;
static int file, synced;
static atomic_int written;
static bool failed, ended;

static void said(const char *word) { dprintf(STDOUT_FILENO, "stored %s\n", word); }

/* Waits for the sync that comes after its write; `acknowledged_early` doesn't. */
static void *store(void *word) {
    char line[100];
    int length = snprintf(line, sizeof line, "%s\n", (char *)word);
    pthread_mutex_lock(&lock);
    must(write_all(file, line, (size_t)length), "log");
    int mine = ++written;
    if (has("acknowledged_early")) said(word);
    pthread_cond_broadcast(&changed);
    while (synced < mine && !failed) pthread_cond_wait(&changed, &lock);
    if (!failed && !has("acknowledged_early")) said(word);
    pthread_mutex_unlock(&lock);
    return NULL;
}

/* What was written when the sync began lasts behind it; `counted_late` takes what came meanwhile for synced too. */
static void *sync_for_all(void *none) {
    pthread_mutex_lock(&lock);
    while (!failed && (synced < written || !ended)) {
        if (synced == written) {
            pthread_cond_wait(&changed, &lock);
            continue;
        }
        int covered = written;
        pthread_mutex_unlock(&lock);
        bool done = sync_file(file) && sync_names();
        if (has("counted_late")) covered = written;
        pthread_mutex_lock(&lock);
        if (!done) failed = true;
        else synced = covered;
        pthread_cond_broadcast(&changed);
    }
    pthread_mutex_unlock(&lock);
    return none;
}

int main(int number, char **words) {
    static char *stored[STORING] = {"one", "two"};
    pthread_t storing[STORING], syncing;
    if (number != 2) return 1;
    flaw = words[1];
    file = open("log", O_WRONLY | O_CREAT | O_APPEND, 0644);
    must(file >= 0, "log");
    pthread_create(&syncing, NULL, sync_for_all, NULL);
    for (int i = 0; i < STORING; i++) pthread_create(&storing[i], NULL, store, stored[i]);
    for (int i = 0; i < STORING; i++) pthread_join(storing[i], NULL);
    pthread_mutex_lock(&lock);
    ended = true;
    pthread_cond_broadcast(&changed);
    pthread_mutex_unlock(&lock);
    pthread_join(syncing, NULL);
    return failed;
}
