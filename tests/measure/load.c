/*
 * load SOCKET IDLE ACTIVE CALLS [LOGINS [SEARCHES [PAUSE]]]: what a client of the daemon on SOCKET sees beside others.
 *
 * IDLE connections open a session each and then do nothing. ACTIVE ones make CALLS calls of C_GetSessionInfo each, once all of them are
 * served, with PAUSE microseconds between two, or none. LOGINS ones log in and out over and over meanwhile; the token is initialised for
 * them. SEARCHES ones begin a search for all objects and end it, over and over.
 *
 * It prints the nanoseconds a call of the active clients, and with one of them or beside others also how long half of its calls took at
 * most, 99 of 100, and the longest. Beside others also how long a new connection waited for its first answer, the longest of twenty.
 * Frames: docs/PROTOCOL.md.
 *
 * cc -O2 -pthread tests/measure/load.c -o load
 */
#include <pthread.h>
#include <stdint.h>
#include <stdio.h>
#include <stdlib.h>
#include <string.h>
#include <sys/socket.h>
#include <sys/un.h>
#include <time.h>
#include <unistd.h>

enum { INIT_TOKEN = 4, INIT_PIN = 5, OPEN_SESSION = 7, SESSION_INFO = 10, LOGIN = 11, LOGOUT = 12, FIND_INIT = 19, FIND_FINAL = 21 };

struct frame {
    unsigned char bytes[256];
    size_t length;
};

struct timing {
    double mean, half, most, longest;
};

static const char *path;
static int calls, pause_each;
static volatile int is_over;
static pthread_barrier_t all_there;

static void fail(const char *what) {
    fprintf(stderr, "load: %s\n", what);
    exit(1);
}

static int dial(void) {
    struct sockaddr_un address = {.sun_family = AF_UNIX};
    int fd = socket(AF_UNIX, SOCK_STREAM, 0);
    strncpy(address.sun_path, path, sizeof address.sun_path - 1);
    if (connect(fd, (void *)&address, sizeof address))
        fail("cannot connect");
    return fd;
}

static void put(struct frame *frame, uint64_t value, int width) {
    for (int i = width; i > 0; i--)
        frame->bytes[frame->length++] = value >> 8 * (i - 1);
}

static void put_bytes(struct frame *frame, const char *text) {
    put(frame, strlen(text), 4);
    memcpy(frame->bytes + frame->length, text, strlen(text));
    frame->length += strlen(text);
}

static struct frame request(int function, uint64_t first) {
    struct frame frame = {.length = 4};
    put(&frame, function, 2);
    put(&frame, first, 8);
    return frame;
}

static void read_all(int fd, unsigned char *bytes, size_t length) {
    for (size_t got = 0; got < length;) {
        ssize_t count = read(fd, bytes + got, length - got);
        if (count <= 0)
            fail("the connection ended");
        got += count;
    }
}

/* Makes a call, and returns the first number of its reply's fields, if it has one. */
static uint64_t ask(int fd, struct frame frame) {
    unsigned char reply[256];
    uint64_t value = 0;
    size_t end = frame.length, length;
    frame.length = 0;
    put(&frame, end - 4, 4);
    if (write(fd, frame.bytes, end) != (ssize_t)end)
        fail("cannot write");
    read_all(fd, reply, 4);
    length = reply[2] << 8 | reply[3];
    if (length > sizeof reply)
        fail("a reply is too long");
    read_all(fd, reply, length);
    for (int i = 0; i < 8; i++)
        if (reply[i])
            fail("a call returned an error");
    for (size_t i = 8; i < 16 && i < length; i++)
        value = value << 8 | reply[i];
    return value;
}

static uint64_t open_session(int fd) {
    struct frame frame = request(OPEN_SESSION, 0);
    put(&frame, 6, 8);
    return ask(fd, frame);
}

static void login(int fd, uint64_t session, int user, const char *pin) {
    struct frame frame = request(LOGIN, session);
    put(&frame, user, 8);
    put_bytes(&frame, pin);
    ask(fd, frame);
}

static void initialise(void) {
    int fd = dial();
    struct frame token = request(INIT_TOKEN, 0), pin;
    put_bytes(&token, "12345678");
    put_bytes(&token, "load                            ");
    ask(fd, token);
    uint64_t session = open_session(fd);
    login(fd, session, 0, "12345678");
    pin = request(INIT_PIN, session);
    put_bytes(&pin, "1234");
    ask(fd, pin);
    close(fd);
}

static void *log_in_and_out(void *count) {
    int fd = dial();
    uint64_t session = open_session(fd);
    while (!is_over) {
        login(fd, session, 1, "1234");
        ask(fd, request(LOGOUT, session));
        ++*(long *)count;
    }
    close(fd);
    return NULL;
}

static void *search(void *count) {
    int fd = dial();
    uint64_t session = open_session(fd);
    struct frame all = request(FIND_INIT, session);
    put(&all, 0, 4);
    while (!is_over) {
        ask(fd, all);
        ask(fd, request(FIND_FINAL, session));
        ++*(long *)count;
    }
    close(fd);
    return NULL;
}

static double now(void) {
    struct timespec time;
    clock_gettime(CLOCK_MONOTONIC, &time);
    return time.tv_sec * 1e9 + time.tv_nsec;
}

static int order(const void *one, const void *other) {
    double a = *(double *)one, b = *(double *)other;
    return (a > b) - (a < b);
}

static void *call(void *result) {
    struct timing *timing = result;
    int fd = dial();
    struct frame info = request(SESSION_INFO, open_session(fd));
    pthread_barrier_wait(&all_there);
    double *took = malloc(calls * sizeof *took), begun;
    for (int i = 0; i < calls / 10; i++)
        ask(fd, info);
    begun = now();
    for (int i = 0; i < calls; i++) {
        if (pause_each)
            usleep(pause_each);
        double before = now();
        ask(fd, info);
        took[i] = now() - before;
    }
    timing->mean = (now() - begun) / calls;
    qsort(took, calls, sizeof *took, order);
    timing->half = took[calls / 2];
    timing->most = took[(long)calls * 99 / 100];
    timing->longest = took[calls - 1];
    free(took);
    close(fd);
    return NULL;
}

/* How long a new connection waits for its first answer, the longest of twenty. */
static double longest_wait(void) {
    double longest = 0;
    for (int i = 0; i < 20; i++) {
        double before = now();
        int fd = dial();
        open_session(fd);
        if (now() - before > longest)
            longest = now() - before;
        close(fd);
    }
    return longest;
}

int main(int count, char **words) {
    static pthread_t callers[64], others[128];
    static struct timing timings[64];
    static long done[128];
    long all = 0;
    double sum = 0, begun, waited = 0;
    if (count < 5)
        fail("SOCKET IDLE ACTIVE CALLS [LOGINS [SEARCHES [PAUSE]]]");
    int idle = atoi(words[2]), active = atoi(words[3]), logins = count > 5 ? atoi(words[5]) : 0;
    int searches = count > 6 ? atoi(words[6]) : 0, beside = logins + searches;
    path = words[1];
    calls = atoi(words[4]);
    pause_each = count > 7 ? atoi(words[7]) : 0;
    if (active < 1 || active > 64 || logins > 64 || searches > 64 || calls < 100)
        fail("1 to 64 active ones, 64 logins and searches at most, and 100 calls at least");
    if (logins)
        initialise();
    for (int i = 0; i < idle; i++)
        open_session(dial());
    for (int i = 0; i < beside; i++)
        pthread_create(&others[i], NULL, i < logins ? log_in_and_out : search, &done[i]);
    usleep(300000);
    pthread_barrier_init(&all_there, NULL, active);
    begun = now();
    for (int i = 0; i < active; i++)
        pthread_create(&callers[i], NULL, call, &timings[i]);
    for (int i = 0; i < active; i++) {
        pthread_join(callers[i], NULL);
        sum += timings[i].mean;
    }
    begun = (now() - begun) / 1e9;
    for (int i = 0; i < beside; i++)
        all += done[i];
    if (beside)
        waited = longest_wait();
    is_over = 1;
    for (int i = 0; i < beside; i++)
        pthread_join(others[i], NULL);
    printf("%.0f", sum / active);
    for (int i = 0; i < active && (active == 1 || beside); i++)
        printf(" half %.0f 99%% %.0f longest %.0f", timings[i].half, timings[i].most, timings[i].longest);
    if (beside)
        printf(" others a second %.1f a new connection %.0f", all / begun, waited);
    printf("\n");
    return 0;
}
