/* writers THREADS: so many threads and a process, each of which writes twenty times to a file of its own, and between to one that all
   share. */
#include <fcntl.h>
#include <pthread.h>
#include <stdio.h>
#include <stdlib.h>
#include <sys/wait.h>
#include <unistd.h>

enum { MOST_THREADS = 8, WRITES = 20 };

static int shared;
static pthread_mutex_t mutex = PTHREAD_MUTEX_INITIALIZER;

static void *act(void *with) {
    char name[16], bytes[16];
    int number = *(int *)with;
    sprintf(name, "own%d", number);
    int file = open(name, O_CREAT | O_RDWR, 0644);
    for (int i = 0; i < WRITES; i++) {
        int length = sprintf(bytes, "%d%02d\n", number, i);
        if (write(file, bytes, (size_t)length) != length) return with;
        pthread_mutex_lock(&mutex);
        if (write(shared, bytes, (size_t)length) != length) return with;
        pthread_mutex_unlock(&mutex);
    }
    return fsync(file) || close(file) ? with : NULL;
}

int main(int count, char **words) {
    pthread_t threads[MOST_THREADS];
    int numbers[MOST_THREADS + 1] = {0, 1, 2, 3, 4, 5, 6, 7, 8}, status, made_threads = count > 1 ? atoi(words[1]) : 0;
    if (made_threads < 1 || made_threads > MOST_THREADS) return 64;
    shared = open("shared", O_CREAT | O_RDWR | O_APPEND, 0644);
    pid_t made = fork();
    if (!made) _exit(act(&numbers[MOST_THREADS]) != NULL);
    for (int i = 0; i < made_threads; i++)
        if (pthread_create(&threads[i], NULL, act, &numbers[i])) return 1;
    for (int i = 0; i < made_threads; i++) pthread_join(threads[i], NULL);
    return waitpid(made, &status, 0) != made || status;
}
