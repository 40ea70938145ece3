/* libpq, as bench/clients/cases.py asks it. */
#include <libpq-fe.h>
#include <poll.h>
#include <stdio.h>
#include <stdlib.h>
#include <string.h>
#include <time.h>

static PGconn *connections[1024];

static long now(void) {
    struct timespec t;
    clock_gettime(CLOCK_MONOTONIC, &t);
    return t.tv_sec * 1000 + t.tv_nsec / 1000000;
}

static void say_error(PGconn *c) {
    char text[1000];
    snprintf(text, sizeof text, "%s", PQerrorMessage(c));
    for (char *p = text; *p; p++) if (*p == '\n') *p = ' ';
    printf("error %s\n", text);
}

static void run(PGconn *c, const char *sql) {
    PGresult *r = PQexec(c, sql);
    ExecStatusType status = PQresultStatus(r);
    if (status == PGRES_COMMAND_OK || status == PGRES_TUPLES_OK || status == PGRES_EMPTY_QUERY) puts("ok");
    else say_error(c);
    PQclear(r);
}

/* libpq has no calls for blocks. */
static void own(PGconn *c) {
    static const char *texts[] = {"BEGIN", "NOTIFY c, 'never'", "ROLLBACK", "BEGIN", "NOTIFY c, 'kept'", "COMMIT", "NOTIFY c, 'behind'"};
    int failed = PQsetClientEncoding(c, "UTF8");
    for (int i = 0; i < 7 && !failed; i++) {
        PGresult *r;
        failed = !PQsendQuery(c, texts[i]);
        while ((r = PQgetResult(c))) {
            failed |= PQresultStatus(r) != PGRES_COMMAND_OK;
            PQclear(r);
        }
    }
    if (failed) say_error(c);
    else puts("ok");
}

static void get(PGconn *c, int count, int ms) {
    long until = now() + ms;
    for (;;) {
        PGnotify *n;
        PQconsumeInput(c);
        while ((n = PQnotifies(c))) {
            printf("%d %s %s\n", n->be_pid, n->relname, n->extra);
            PQfreemem(n);
            count--;
        }
        long left = until - now();
        if (count <= 0 || left <= 0 || PQstatus(c) != CONNECTION_OK) break;
        struct pollfd p = {PQsocket(c), POLLIN, 0};
        poll(&p, 1, left);
    }
    puts("ok");
}

int main(int argc, char **argv) {
    char *line = NULL, where[1000];
    size_t size = 0;
    ssize_t length;
    if (argc < 3) return 2;
    snprintf(where, sizeof where, "host=127.0.0.1 port=%s user=me dbname=%s", argv[1], argv[2]);
    while ((length = getline(&line, &size, stdin)) > 0) {
        int n, count, ms, at;
        if (line[length - 1] == '\n') line[length - 1] = 0;
        if (sscanf(line, "open %d", &n) == 1) {
            connections[n] = PQconnectdb(where);
            if (PQstatus(connections[n]) == CONNECTION_OK) puts("ok");
            else say_error(connections[n]);
        } else if (sscanf(line, "run %d %n", &n, &at) == 1) {
            run(connections[n], line + at);
        } else if (sscanf(line, "get %d %d %d", &n, &count, &ms) == 3) {
            get(connections[n], count, ms);
        } else if (sscanf(line, "own %d", &n) == 1) {
            own(connections[n]);
        } else if (sscanf(line, "close %d", &n) == 1) {
            PQfinish(connections[n]);
            puts("ok");
        }
        fflush(stdout);
    }
    return 0;
}
