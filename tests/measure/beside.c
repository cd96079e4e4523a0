/*
 * beside --module LIBRARY: what calls of a PKCS #11 library cost, so that two can stand beside one another (tests/measure/beside.sh does that).
 *
 * Each row is a line: what is called, by how many processes, microseconds a call, calls a second of all processes together. Between
 * them are tabs. A row that the library refuses has its return value in the place of the times. Each figure is the median of --rounds
 * rounds of --milliseconds each. Every process loads the library and has a session and a key of its own.
 *
 * Options, each with its default:
 *   --module LIBRARY        the library to load; it has no default
 *   --rounds 5              rounds of each row
 *   --milliseconds 300      how long a round is
 *   --processes 4           how many processes are together in the rows that have several; 1 leaves those rows out
 *   --objects 100,1000      how many keys there are in turn where they are searched by label; 0 makes none
 *   --seconds 60            how long making them may take in all; then those that there are are searched, and it ends
 *   --pin PIN               logs in with the user's PIN, and makes private keys; without it nobody logs in, and keys are public
 *   --only WORD             rows that have this word in their names alone
 *   --help                  this text
 *
 * A key that is made lies in the token and stays (CKA_TOKEN). One key in a hundred has the label that is searched. A search is
 * C_FindObjectsInit, C_FindObjects and C_FindObjectsFinal. Each C_Encrypt and C_Sign is counted with its Init call as one.
 *
 * The daemon is measured through its library, over a new store:
 *   out/tokend serve --store FOLDER/token.db --socket FOLDER/token.sock &
 *   TOKEND_SOCKET=FOLDER/token.sock ./beside --module out/tokend-pkcs11.so
 *
 * Its peer is SoftHSM behind p11-kit's server (Debian's softhsm2, p11-kit and p11-kit-modules), which starts a process for each
 * connection. FOLDER/softhsm2.conf is the line `directories.tokendir = FOLDER/tokens`, and that folder is there and empty:
 *   export SOFTHSM2_CONF=FOLDER/softhsm2.conf
 *   softhsm2-util --init-token --free --label beside --so-pin 12345678 --pin 1234
 *   p11-kit server --foreground --name FOLDER/peer.sock --provider /usr/lib/softhsm/libsofthsm2.so 'pkcs11:token=beside' &
 *   P11_KIT_SERVER_ADDRESS=unix:path=FOLDER/peer.sock ./beside --module /usr/lib/x86_64-linux-gnu/pkcs11/p11-kit-client.so
 *
 * cc -O2 -pthread tests/measure/beside.c -o beside
 */
#include <dlfcn.h>
#include <getopt.h>
#include <stdio.h>
#include <stdlib.h>
#include <string.h>
#include <sys/wait.h>
#include <time.h>
#include <unistd.h>

typedef unsigned long CK_ULONG;
typedef unsigned char CK_BYTE;

struct attribute {
    CK_ULONG type;
    const void *value;
    CK_ULONG length;
};

struct mechanism {
    CK_ULONG type;
    const void *parameter;
    CK_ULONG length;
};

struct session_info {
    CK_ULONG slot, state, flags, device_error;
};

struct token_info {
    CK_BYTE texts[96];
    CK_ULONG flags;
    CK_BYTE rest[256];
};

/* CK_FUNCTION_LIST, up to C_Sign. */
struct functions {
    CK_BYTE version[2];
    CK_ULONG (*initialize)(void *);
    CK_ULONG (*finalize)(void *);
    void *get_info[2];
    CK_ULONG (*get_slot_list)(CK_BYTE, CK_ULONG *, CK_ULONG *);
    void *get_slot_info;
    CK_ULONG (*get_token_info)(CK_ULONG, struct token_info *);
    void *get_mechanism_list[5];
    CK_ULONG (*open_session)(CK_ULONG, CK_ULONG, void *, void *, CK_ULONG *);
    void *close_session[2];
    CK_ULONG (*get_session_info)(CK_ULONG, struct session_info *);
    void *get_operation_state[2];
    CK_ULONG (*login)(CK_ULONG, CK_ULONG, const CK_BYTE *, CK_ULONG);
    void *logout;
    CK_ULONG (*create_object)(CK_ULONG, const struct attribute *, CK_ULONG, CK_ULONG *);
    void *copy_object;
    CK_ULONG (*destroy_object)(CK_ULONG, CK_ULONG);
    void *get_object_size[3];
    CK_ULONG (*find_objects_init)(CK_ULONG, const struct attribute *, CK_ULONG);
    CK_ULONG (*find_objects)(CK_ULONG, CK_ULONG *, CK_ULONG, CK_ULONG *);
    CK_ULONG (*find_objects_final)(CK_ULONG);
    CK_ULONG (*encrypt_init)(CK_ULONG, const struct mechanism *, CK_ULONG);
    CK_ULONG (*encrypt)(CK_ULONG, const CK_BYTE *, CK_ULONG, CK_BYTE *, CK_ULONG *);
    void *encrypt_update[11];
    CK_ULONG (*sign_init)(CK_ULONG, const struct mechanism *, CK_ULONG);
    CK_ULONG (*sign)(CK_ULONG, const CK_BYTE *, CK_ULONG, CK_BYTE *, CK_ULONG *);
};

enum { CLASS = 0, TOKEN = 1, PRIVATE = 2, LABEL = 3, VALUE = 0x11, KEY_TYPE = 0x100, ENCRYPT = 0x104, SIGN = 0x108 };
enum { SHA256_HMAC = 0x251, AES_ECB = 0x1081, AES_CBC_PAD = 0x1085, AES_CMAC = 0x108A };
enum { GENERIC_SECRET = 0x10, AES = 0x1F };
enum { LONGEST = 1048528, MOST_ROUNDS = 101, MOST_PROCESSES = 64 };

/* A process of the library's. */
struct client {
    const struct functions *calls;
    CK_ULONG session, key, mac_key;
    CK_BYTE *text, *output;
    unsigned made;
};

/* A row: its name, and what is called over and over. */
struct row {
    const char *name;
    CK_ULONG (*call)(struct client *, const struct row *);
    CK_ULONG mechanism, length;
};

static struct {
    const char *module, *pin, *only;
    char *objects;
    int rounds, milliseconds, processes, seconds;
} options = {NULL, NULL, "", "100,1000", 5, 300, 4, 60};

static void fail(const char *what, CK_ULONG code) {
    fprintf(stderr, "beside: %s", what);
    if (code)
        fprintf(stderr, " (return value 0x%lx)", code);
    fprintf(stderr, "\n");
    exit(1);
}

static double now(void) {
    struct timespec time;
    clock_gettime(CLOCK_MONOTONIC, &time);
    return time.tv_sec + time.tv_nsec / 1e9;
}

static int order(const void *one, const void *other) {
    double a = *(const double *)one, b = *(const double *)other;
    return (a > b) - (a < b);
}

static double median(double *values, int count) {
    qsort(values, count, sizeof *values, order);
    return values[count / 2];
}

/* The slot whose token is initialised, or the first one. */
static CK_ULONG find_slot(const struct functions *calls) {
    enum { INITIALIZED = 0x400 };
    CK_ULONG slots[16], count = 16;
    CK_ULONG code = calls->get_slot_list(1, slots, &count);
    if (code || count == 0)
        fail("no token is there", code);
    for (CK_ULONG i = 0; i < count; i++) {
        struct token_info info;
        if (calls->get_token_info(slots[i], &info) == 0 && info.flags & INITIALIZED)
            return slots[i];
    }
    return slots[0];
}

static CK_ULONG make_key(struct client *client, CK_ULONG key_type, int is_of_token, const char *label, CK_ULONG *key) {
    static const CK_ULONG class = 4;
    static const CK_BYTE value[32] = {7}, yes = 1;
    const CK_BYTE token = is_of_token, private = options.pin != NULL;
    const struct attribute template[] = {
        {CLASS, &class, sizeof class},
        {KEY_TYPE, &key_type, sizeof key_type},
        {VALUE, value, key_type == AES ? 16 : 32},
        {TOKEN, &token, 1},
        {PRIVATE, &private, 1},
        {LABEL, label, strlen(label)},
        {SIGN, &yes, 1},
        {ENCRYPT, &yes, 1},
    };
    /* (CKA_ENCRYPT is for AES alone) */
    CK_ULONG count = sizeof template / sizeof *template - (key_type != AES);
    return client->calls->create_object(client->session, template, count, key);
}

/* Loads the library, opens a session, and makes two keys of it. */
static struct client start(void) {
    struct client client = {.made = 0};
    CK_ULONG (*get_function_list)(const struct functions **);
    void *library = dlopen(options.module, RTLD_NOW);
    if (!library)
        fail(dlerror(), 0);
    *(void **)&get_function_list = dlsym(library, "C_GetFunctionList");
    if (!get_function_list)
        fail("the library has no C_GetFunctionList", 0);
    CK_ULONG code = get_function_list(&client.calls);
    if (code)
        fail("C_GetFunctionList", code);
    code = client.calls->initialize(NULL);
    if (code)
        fail("C_Initialize", code);
    code = client.calls->open_session(find_slot(client.calls), 6, NULL, NULL, &client.session);
    if (code)
        fail("C_OpenSession", code);
    if (options.pin) {
        code = client.calls->login(client.session, 1, (const CK_BYTE *)options.pin, strlen(options.pin));
        if (code)
            fail("C_Login", code);
    }
    code = make_key(&client, AES, 0, "beside", &client.key);
    if (!code)
        code = make_key(&client, GENERIC_SECRET, 0, "beside", &client.mac_key);
    if (code)
        fail("C_CreateObject", code);
    client.text = calloc(1, LONGEST);
    client.output = malloc(LONGEST + 16);
    return client;
}

static CK_ULONG session_info(struct client *client, const struct row *row) {
    struct session_info info;
    (void)row;
    return client->calls->get_session_info(client->session, &info);
}

static CK_ULONG encrypt(struct client *client, const struct row *row) {
    static const CK_BYTE iv[16] = {3};
    struct mechanism mechanism = {row->mechanism, row->mechanism == AES_ECB ? NULL : iv, row->mechanism == AES_ECB ? 0 : 16};
    CK_ULONG length = row->length + 16;
    CK_ULONG code = client->calls->encrypt_init(client->session, &mechanism, client->key);
    return code ? code : client->calls->encrypt(client->session, client->text, row->length, client->output, &length);
}

static CK_ULONG sign(struct client *client, const struct row *row) {
    struct mechanism mechanism = {row->mechanism, NULL, 0};
    CK_ULONG length = 32, key = row->mechanism == SHA256_HMAC ? client->mac_key : client->key;
    CK_ULONG code = client->calls->sign_init(client->session, &mechanism, key);
    return code ? code : client->calls->sign(client->session, client->text, row->length, client->output, &length);
}

/* A key of the token, which lasts, and its removal. */
static CK_ULONG create_and_destroy(struct client *client, const struct row *row) {
    CK_ULONG key, code = make_key(client, AES, 1, "passing", &key);
    (void)row;
    return code ? code : client->calls->destroy_object(client->session, key);
}

static const struct row rows[] = {
    {"C_GetSessionInfo", session_info, 0, 0},
    {"C_Encrypt ECB 16", encrypt, AES_ECB, 16},
    {"C_Encrypt ECB 16384", encrypt, AES_ECB, 16384},
    {"C_Encrypt ECB 64000", encrypt, AES_ECB, 64000},
    {"C_Encrypt ECB 1048528", encrypt, AES_ECB, LONGEST},
    {"C_Encrypt CBC_PAD 16384", encrypt, AES_CBC_PAD, 16384},
    {"C_Encrypt CBC_PAD 64000", encrypt, AES_CBC_PAD, 64000},
    {"C_Encrypt CBC_PAD 1048528", encrypt, AES_CBC_PAD, LONGEST},
    {"C_Sign CMAC 64", sign, AES_CMAC, 64},
    {"C_Sign CMAC 16384", sign, AES_CMAC, 16384},
    {"C_Sign SHA256_HMAC 64", sign, SHA256_HMAC, 64},
    {"C_Sign SHA256_HMAC 16384", sign, SHA256_HMAC, 16384},
    {"create and destroy a key of the token", create_and_destroy, 0, 0},
};

/* What a process writes for a round: how many calls a second, or the return value that ended it. */
struct result {
    double rate;
    CK_ULONG code;
};

/* Calls over and over for a round's time. */
static struct result play(struct client *client, const struct row *row) {
    double begun = now(), end = begun + options.milliseconds / 1e3, last = begun;
    struct result result = {0, 0};
    long count = 0;
    while (last < end && !result.code) {
        result.code = row->call(client, row);
        last = now();
        count++;
    }
    result.rate = count / (last - begun);
    return result;
}

/* A process of a row: a round for each byte that comes. One round comes before, so that all is warm. */
static void serve(int commands, int results, const struct row *row) {
    struct client client = start();
    struct result result = play(&client, row);
    char byte;
    if (write(results, &result, sizeof result) != sizeof result)
        fail("cannot write", 0);
    while (read(commands, &byte, 1) == 1) {
        result = play(&client, row);
        if (write(results, &result, sizeof result) != sizeof result)
            fail("cannot write", 0);
    }
    client.calls->finalize(NULL);
    exit(0);
}

struct process {
    pid_t id;
    int commands, results;
};

static struct process launch(const struct row *row) {
    int commands[2], results[2];
    struct process process;
    if (pipe(commands) || pipe(results))
        fail("cannot make a pipe", 0);
    fflush(stdout);
    process.id = fork();
    if (process.id < 0)
        fail("cannot fork", 0);
    if (process.id == 0) {
        close(commands[1]);
        close(results[0]);
        serve(commands[0], results[1], row);
    }
    close(commands[0]);
    close(results[1]);
    process.commands = commands[1];
    process.results = results[0];
    return process;
}

/* The sum of what the processes write. */
static struct result collect(const struct process *processes, int count) {
    struct result sum = {0, 0}, result;
    for (int i = 0; i < count; i++) {
        if (read(processes[i].results, &result, sizeof result) != sizeof result)
            fail("a process ended", 0);
        sum.rate += result.rate;
        if (result.code)
            sum.code = result.code;
    }
    return sum;
}

static void print(const char *name, int processes, double rate, CK_ULONG code) {
    if (code)
        printf("%s\t%d\t0x%lx\t-\n", name, processes, code);
    else
        printf("%s\t%d\t%.2f\t%.0f\n", name, processes, 1e6 * processes / rate, rate);
    fflush(stdout);
}

/* Measures a row by so many processes. The last one ends first, since it holds the pipes of those before it, too. */
static void measure(const struct row *row, int count) {
    static struct process processes[MOST_PROCESSES];
    double rates[MOST_ROUNDS];
    struct result result;
    for (int i = 0; i < count; i++)
        processes[i] = launch(row);
    result = collect(processes, count);
    for (int round = 0; round < options.rounds && !result.code; round++) {
        for (int i = 0; i < count; i++)
            if (write(processes[i].commands, "g", 1) != 1)
                fail("a process ended", 0);
        result = collect(processes, count);
        rates[round] = result.rate;
    }
    for (int i = count; i > 0; i--) {
        close(processes[i - 1].commands);
        close(processes[i - 1].results);
        waitpid(processes[i - 1].id, NULL, 0);
    }
    print(row->name, count, result.code ? 0 : median(rates, options.rounds), result.code);
}

/* One search by label, and how many keys it finds. */
static CK_ULONG search(struct client *client, CK_ULONG *found) {
    static const struct attribute label = {LABEL, "wanted", 6};
    static CK_ULONG keys[1024];
    CK_ULONG count = 0, code = client->calls->find_objects_init(client->session, &label, 1);
    *found = 0;
    do {
        if (code)
            return code;
        code = client->calls->find_objects(client->session, keys, 1024, &count);
        *found += count;
    } while (count == 1024);
    return code ? code : client->calls->find_objects_final(client->session);
}

/* Makes keys of the token until there are so many, or until the time is over. Prints how many a second. */
static int make_keys(struct client *client, unsigned count, double deadline) {
    char name[64];
    double begun = now();
    unsigned before = client->made;
    CK_ULONG key, code = 0;
    while (client->made < count && !code && now() < deadline) {
        code = make_key(client, AES, 1, client->made % 100 ? "others" : "wanted", &key);
        if (!code)
            client->made++;
    }
    snprintf(name, sizeof name, "C_CreateObject up to %u", client->made);
    print(name, 1, (client->made - before) / (now() - begun), code);
    return !code && client->made == count;
}

/* The median of searches among the keys that were made. Each round has one search at least, however long it takes. */
static void measure_search(struct client *client) {
    char name[64];
    double rates[MOST_ROUNDS];
    CK_ULONG found = 0, code = 0;
    snprintf(name, sizeof name, "search among %u", client->made);
    for (int round = 0; round < options.rounds && !code; round++) {
        double begun = now(), last = begun;
        long searches = 0;
        while (!code && last < begun + options.milliseconds / 1e3) {
            code = search(client, &found);
            last = now();
            searches++;
        }
        rates[round] = searches / (last - begun);
    }
    if (!code && found != (client->made + 99) / 100)
        fail("a search found another number of keys: the token had some before", 0);
    print(name, 1, code ? 0 : median(rates, options.rounds), code);
}

/* The rows of keys of the token, by a process of their own. */
static void measure_objects(void) {
    fflush(stdout);
    pid_t id = fork();
    if (id == 0) {
        struct client client = start();
        double deadline = now() + options.seconds;
        int goes_on = 1;
        for (char *rest = options.objects; *rest && goes_on; rest += *rest == ',') {
            unsigned count = strtoul(rest, &rest, 10);
            if (count <= client.made || (*rest && *rest != ','))
                fail("--objects: rising numbers with commas between them", 0);
            goes_on = make_keys(&client, count, deadline);
            measure_search(&client);
        }
        client.calls->finalize(NULL);
        exit(0);
    }
    int status;
    waitpid(id, &status, 0);
    if (status)
        exit(1);
}

static void help(void) {
    puts("beside --module LIBRARY [--rounds 5] [--milliseconds 300] [--processes 4]\n"
         "       [--objects 100,1000] [--seconds 60] [--pin PIN] [--only WORD]\n"
         "\n"
         "Measures calls of a PKCS #11 library. A line has, with tabs between them: what is\n"
         "called, by how many processes, microseconds a call, calls a second of all.\n"
         "\n"
         "  --module LIBRARY    the library to load\n"
         "  --rounds N          rounds of each row, of which the median is printed\n"
         "  --milliseconds N    how long a round is\n"
         "  --processes N       how many are together in the rows with several; 1: no such rows\n"
         "  --objects N,N,..    how many keys the token has in turn as it is searched; 0: none\n"
         "  --seconds N         how long making them may take in all\n"
         "  --pin PIN           logs in with the user's PIN, and makes private keys\n"
         "  --only WORD         rows with this word in their names alone");
}

static int number(const char *text, int least, int most) {
    char *end;
    long value = strtol(text, &end, 10);
    if (!*text || *end || value < least || value > most)
        fail("a number is wrong: see --help", 0);
    return value;
}

/* Takes an option by its letter. */
static void take(int letter, char *value) {
    switch (letter) {
    case 'm':
        options.module = value;
        break;
    case 'r':
        options.rounds = number(value, 1, MOST_ROUNDS);
        break;
    case 't':
        options.milliseconds = number(value, 1, 60000);
        break;
    case 'p':
        options.processes = number(value, 1, MOST_PROCESSES);
        break;
    case 'o':
        options.objects = value;
        break;
    case 's':
        options.seconds = number(value, 1, 86400);
        break;
    case 'u':
        options.pin = value;
        break;
    case 'y':
        options.only = value;
        break;
    case 'h':
        help();
        exit(0);
    default:
        exit(2);
    }
}

static void read_options(int count, char **words) {
    static const struct option names[] = {
        {"module", 1, NULL, 'm'},  {"rounds", 1, NULL, 'r'},  {"milliseconds", 1, NULL, 't'}, {"processes", 1, NULL, 'p'},
        {"objects", 1, NULL, 'o'}, {"seconds", 1, NULL, 's'}, {"pin", 1, NULL, 'u'},          {"only", 1, NULL, 'y'},
        {"help", 0, NULL, 'h'},    {NULL, 0, NULL, 0},
    };
    for (int letter; (letter = getopt_long(count, words, "", names, NULL)) != -1;)
        take(letter, optarg);
    if (!options.module || optind < count)
        fail("--module LIBRARY: see --help", 0);
}

int main(int count, char **words) {
    read_options(count, words);
    for (size_t i = 0; i < sizeof rows / sizeof *rows; i++)
        if (strstr(rows[i].name, options.only))
            measure(&rows[i], 1);
    for (size_t i = 0; options.processes > 1 && i < sizeof rows / sizeof *rows; i++)
        if (strstr(rows[i].name, options.only))
            measure(&rows[i], options.processes);
    if (strcmp(options.objects, "0"))
        measure_objects();
    return 0;
}
