/*
 * Replies beside those of a Redis server on the same messages: the bytes of XRANGE, XDEL, XTRIM and XACK are the library's, and the library
 * reads the server's back. `server SOCKET` starts redis-server on a socket of that name, without a port and without files; it ends with
 * this program, however that ends.
 */
#define _GNU_SOURCE
#include <signal.h>
#include <stdio.h>
#include <stdlib.h>
#include <string.h>
#include <sys/prctl.h>
#include <sys/socket.h>
#include <sys/un.h>
#include <sys/wait.h>
#include <time.h>
#include <unistd.h>

#include "cases.h"

enum { START_TRIES = 500, TRY_NS = 10000000, COMMAND_BYTES = REPLY_BYTES };

static struct held held;
static uint8_t reply[REPLY_BYTES], theirs[REPLY_BYTES], expected[REPLY_BYTES];
static struct sockaddr_un address = {.sun_family = AF_UNIX};
static pid_t server;

/* Commands under way to the server. */
static struct {
    uint8_t bytes[COMMAND_BYTES];
    size_t length;
} sent;

static void end_server(void)
{
    if (0 < server) {
        kill(server, SIGKILL);
        waitpid(server, NULL, 0);
        unlink(address.sun_path);
    }
}

static int connected(void)
{
    int fd = socket(AF_UNIX, SOCK_STREAM | SOCK_CLOEXEC, 0);
    must(0 <= fd, "socket");
    if (connect(fd, (const struct sockaddr *)&address, sizeof address) == 0) {
        return fd;
    }
    close(fd);
    return -1;
}

static void run_server(pid_t parent)
{
    prctl(PR_SET_PDEATHSIG, SIGKILL);
    if (getppid() == parent) {
        execlp("redis-server", "redis-server", "--port", "0", "--unixsocket", address.sun_path, "--save", "", "--appendonly", "no", "--daemonize", "no",
               "--logfile", "redis.log", (char *)NULL);
    }
    _exit(127);
}

static void start_server(const char *path)
{
    const struct timespec pause = {.tv_nsec = TRY_NS};
    pid_t parent = getpid();
    int fd = -1;
    must(strlen(path) < sizeof address.sun_path, "the socket's name is too long");
    strcpy(address.sun_path, path);
    unlink(path);
    server = fork();
    must(0 <= server, "fork");
    if (server == 0) {
        run_server(parent);
    }
    atexit(end_server);
    for (int i = 0; fd < 0 && i < START_TRIES; i++) {
        nanosleep(&pause, NULL);
        must(waitpid(server, NULL, WNOHANG) == 0, "redis-server ended");
        fd = connected();
    }
    must(0 <= fd, "redis-server does not answer");
    close(fd);
}

static void send_bytes(const void *bytes, size_t length)
{
    must(length <= sizeof sent.bytes - sent.length, "commands too long");
    memcpy(sent.bytes + sent.length, bytes, length);
    sent.length += length;
}

static void send_head(char kind, size_t number)
{
    char text[32];
    send_bytes(text, (size_t)snprintf(text, sizeof text, "%c%zu\r\n", kind, number));
}

static void send_string(const void *string, size_t length)
{
    send_head('$', length);
    send_bytes(string, length);
    send_bytes("\r\n", 2);
}

/* A command whose words have no spaces in them. */
static void send_words(const char *words)
{
    size_t count = 1;
    for (const char *at = words; *at != 0; at++) {
        count += *at == ' ' ? 1 : 0;
    }
    send_head('*', count);
    for (; 0 < count; count--) {
        size_t length = strcspn(words, " ");
        send_string(words, length);
        words += length + 1;
    }
}

/* What the server answers to the commands. QUIT makes it close the connection behind its last answer, so that nothing has to be parsed. */
static size_t answer(void)
{
    static const char bye[] = "+OK\r\n";
    size_t length = 0;
    ssize_t n = 0;
    int fd = connected();
    must(0 <= fd, "connect");
    send_words("QUIT");
    for (size_t at = 0; at < sent.length; at += (size_t)n) {
        n = send(fd, sent.bytes + at, sent.length - at, MSG_NOSIGNAL);
        must(0 < n, "send");
    }
    while (0 < (n = recv(fd, theirs + length, sizeof theirs - length, 0))) {
        length += (size_t)n;
    }
    close(fd);
    sent.length = 0;
    must(n == 0 && strlen(bye) <= length && memcmp(theirs + length - strlen(bye), bye, strlen(bye)) == 0, "the server's last answer");
    return length - strlen(bye);
}

static void send_message(const struct message *message)
{
    char id[ID_TEXT_BYTES];
    const uint8_t *at = message->slip + 1;
    id_text(message->ms, message->seq, id);
    send_head('*', 3 + 2u * message->slip[0]);
    send_string("XADD", 4);
    send_string("stream", 6);
    send_string(id, strlen(id));
    for (unsigned i = 0; i < 2u * message->slip[0]; i++) {
        size_t length;
        const uint8_t *string = take_string(&at, &length);
        send_string(string, length);
    }
}

/* The server holds the messages of the store, and nothing else. */
static void copy_to_server(void)
{
    size_t length = 0;
    send_words("FLUSHALL");
    length += (size_t)sprintf((char *)expected, "+OK\r\n");
    for (size_t i = 0; i < held.count; i++) {
        char id[ID_TEXT_BYTES];
        id_text(held.messages[i].ms, held.messages[i].seq, id);
        send_message(&held.messages[i]);
        length += (size_t)sprintf((char *)expected + length, "$%zu\r\n%s\r\n", strlen(id), id);
    }
    must(answer() == length && memcmp(theirs, expected, length) == 0, "XADD");
}

static void ask_range(const char *first, const char *last)
{
    send_head('*', 4);
    send_string("XRANGE", 6);
    send_string("stream", 6);
    send_string(first, strlen(first));
    send_string(last, strlen(last));
}

/* Both directions: the server's bytes are ours, and the library reads the server's. */
static void compare(const struct range *range)
{
    size_t length = range_reply(&held, range, reply, sizeof reply);
    must(answer() == length && memcmp(theirs, reply, length) == 0, "XRANGE answers other bytes");
    must_read_back(&held, range, theirs, length);
}

static void try_case(unsigned number)
{
    struct range ranges[RANGES];
    make_case(number, &held);
    make_ranges(&held, ranges);
    copy_to_server();
    ask_range("-", "+");
    compare(&ranges[0]);
    for (size_t i = 0; i < RANGES; i++) {
        char first[ID_TEXT_BYTES], last[ID_TEXT_BYTES];
        id_text(ranges[i].first_ms, ranges[i].first_seq, first);
        id_text(ranges[i].last_ms, ranges[i].last_seq, last);
        ask_range(first, last);
        compare(&ranges[i]);
    }
}

/* The server's answer to a command is the integer reply of a count, and is read as that. */
static void must_count(const char *words, uint64_t count)
{
    uint64_t length, kind, number;
    send_words(words);
    must(wallathi_integer_reply(count, reply, sizeof reply, &length) == WALLATHI_OK, "integer reply");
    must(answer() == length && memcmp(theirs, reply, (size_t)length) == 0, words);
    must(wallathi_read_reply(theirs, (size_t)length, &kind, &number) == WALLATHI_OK && kind == WALLATHI_INTEGER_REPLY && number == count, "read integer reply");
}

static void try_delete(uint64_t ms, uint64_t seq)
{
    char words[64 + ID_TEXT_BYTES] = "XDEL stream ";
    uint64_t count;
    id_text(ms, seq, words + strlen(words));
    must(wallathi_delete(held.store, held.length, held.state, ms, seq, &count) == WALLATHI_OK, "delete");
    must_count(words, count);
}

static void try_trim(uint64_t most)
{
    char words[64];
    uint64_t count;
    snprintf(words, sizeof words, "XTRIM stream MAXLEN %u", (unsigned)most);
    must(wallathi_trim(held.store, held.length, held.state, most, &count) == WALLATHI_OK, "trim");
    must_count(words, count);
}

static void try_acknowledge(uint64_t ms, uint64_t seq)
{
    char words[64 + ID_TEXT_BYTES] = "XACK stream g ";
    uint64_t count;
    id_text(ms, seq, words + strlen(words));
    must(wallathi_acknowledge(held.store, held.length, held.state, (const uint8_t *)"g", 1, ms, seq, &count) == WALLATHI_OK, "acknowledge");
    must_count(words, count);
}

/* Both give the first message to a consumer of a new group. */
static void deliver(void)
{
    uint64_t ms, seq;
    const uint8_t *g = (const uint8_t *)"g";
    must(wallathi_create_group(held.store, held.length, held.state, g, 1, 0, 0) == WALLATHI_OK, "create group");
    must(wallathi_group_read(held.store, held.length, held.state, g, 1, g, 1, 1, &ms, &seq) == WALLATHI_OK, "group read");
    send_words("XGROUP CREATE stream g 0");
    send_words("XREADGROUP GROUP g g COUNT 1 STREAMS stream >");
    must(5 < answer() && memcmp(theirs, "+OK\r\n*1\r\n", 9) == 0, "XREADGROUP");
    try_acknowledge(ms, seq);
    try_acknowledge(ms, seq);
}

/* On the full store of the last case: a group, deletes, trims; what is left is the same. */
static void try_counts(void)
{
    const struct range whole = {0, 0, UINT64_MAX, UINT64_MAX};
    trying = "counts";
    deliver();
    try_delete(100, 0);
    try_delete(100, 0);
    try_delete(100, 1);
    try_trim(799);
    try_trim(790);
    try_trim(150);
    read_all(&held);
    ask_range("-", "+");
    compare(&whole);
    try_trim(0);
}

int main(int argc, char **argv)
{
    must(argc == 2, "usage: server SOCKET");
    start_server(argv[1]);
    for (unsigned i = 0; i < CASES; i++) {
        try_case(i);
    }
    try_counts();
    return 0;
}
