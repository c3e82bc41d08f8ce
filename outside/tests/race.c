/* race [SOUND]: two threads, each of which appends a record to `log`: it reads how many there are, writes its own behind them, then the new
   count, syncs both, and says so. Without SOUND nothing keeps one from being overtaken between its read and its write. */
#include <fcntl.h>
#include <pthread.h>
#include <stdio.h>
#include <unistd.h>

static int file, is_sound;
static pthread_mutex_t mutex = PTHREAD_MUTEX_INITIALIZER;

static int append(char record) {
    unsigned char count;
    if (pread(file, &count, 1, 0) != 1) return 1;
    if (pwrite(file, &record, 1, 1 + count) != 1) return 1;
    count++;
    return pwrite(file, &count, 1, 0) != 1 || fsync(file);
}

static void *act(void *record) {
    if (is_sound) pthread_mutex_lock(&mutex);
    int failed = append(*(char *)record);
    if (is_sound) pthread_mutex_unlock(&mutex);
    if (!failed) dprintf(1, "done %c\n", *(char *)record);
    return NULL;
}

int main(int count, char **words) {
    pthread_t threads[2];
    is_sound = count > 1 && *words[1];
    file = open("log", O_RDWR);
    if (file < 0) return 1;
    for (int i = 0; i < 2; i++)
        if (pthread_create(&threads[i], NULL, act, &"ab"[i])) return 1;
    for (int i = 0; i < 2; i++) pthread_join(threads[i], NULL);
    return 0;
}
