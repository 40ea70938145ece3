/* Has the service of one client answer queries: asking WAY COUNT PROGRAM WORD ..

   Starts the program, asks LISTEN c, and then so many times NOTIFY c, 'p': `together`, sent in large pieces by a process of their own
   while this one takes the answers, or `apart`, each once the one before was answered. Compares each answer with the one that is due,
   ends the input, and prints the microseconds of the clock from the first NOTIFY to the last answer. */
#include <stdio.h>
#include <stdlib.h>
#include <string.h>
#include <sys/wait.h>
#include <time.h>
#include <unistd.h>

#define PIECE 65536

static const char listen_c[] = "Q\0\0\0\015LISTEN c", listened[] = "C\0\0\0\013LISTEN\0Z\0\0\0\5I";
static const char notify[] = "Q\0\0\0\022NOTIFY c, 'p'", notified[] = "C\0\0\0\013NOTIFY\0A\0\0\0\014\0\0\3\351c\0p\0Z\0\0\0\5I";
static int into, out;

static void end(const char *why) {
    fprintf(stderr, "bench: %s\n", why);
    exit(1);
}

static void send_all(const char *bytes, size_t size) {
    while (size) {
        ssize_t sent = write(into, bytes, size);
        if (sent <= 0) end("the program takes no query");
        bytes += sent, size -= (size_t)sent;
    }
}

/* Takes so many bytes, of answers that are all this one. */
static void take(const char *answer, size_t length, size_t size) {
    static char piece[PIECE];
    size_t at = 0;
    while (size) {
        ssize_t came = read(out, piece, size < PIECE ? size : PIECE);
        if (came <= 0) end("the program has ended");
        size -= (size_t)came;
        for (ssize_t i = 0; i < came; i++, at = at + 1 < length ? at + 1 : 0)
            if (piece[i] != answer[at]) end("an answer is not the one that is due");
    }
}

/* Sends so many queries in pieces, in a process of its own. */
static void send_together(long count) {
    static char piece[PIECE];
    size_t length = sizeof notify, each = PIECE / length;
    for (size_t i = 0; i < each; i++) memcpy(piece + i * length, notify, length);
    if (fork()) return;
    for (; count > 0; count -= (long)each) send_all(piece, ((size_t)count < each ? (size_t)count : each) * length);
    _exit(0);
}

static double micros(void) {
    struct timespec time;
    clock_gettime(CLOCK_MONOTONIC, &time);
    return (double)time.tv_sec * 1e6 + (double)time.tv_nsec / 1e3;
}

static void start(char **words) {
    int to[2], from[2];
    if (pipe(to) || pipe(from)) end("no pipe");
    if (!fork()) {
        dup2(to[0], 0), dup2(from[1], 1);
        close(to[0]), close(to[1]), close(from[0]), close(from[1]);
        execvp(words[0], words);
        _exit(127);
    }
    close(to[0]), close(from[1]);
    into = to[1], out = from[0];
}

int main(int words, char **word) {
    if (words < 4) end("usage: asking together|apart COUNT PROGRAM WORD ..");
    int together = !strcmp(word[1], "together"), status;
    long count = atol(word[2]);
    size_t length = sizeof notified - 1;
    start(word + 3);
    send_all(listen_c, sizeof listen_c);
    take(listened, sizeof listened - 1, sizeof listened - 1);
    double begun = micros();
    if (together) {
        send_together(count);
        take(notified, length, length * (size_t)count);
    } else
        for (long i = 0; i < count; i++) {
            send_all(notify, sizeof notify);
            take(notified, length, length);
        }
    double ended = micros();
    close(into);
    while (wait(&status) > 0)
        if (status) end("the program did not end well");
    printf("%.0f\n", ended - begun);
    return 0;
}
