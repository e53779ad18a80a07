/* Serves HAProxy as an agent (SPOP) on a port of the loopback, over the library alone, until SIGTERM or SIGINT.
 *
 *     agent [PORT]             12345 unless given
 *
 * Each NOTIFY is answered by an ACK that sets variables of the transaction, in the order of the arguments. A message "upload" has
 * a slot and its delay, and then another slot and its own: they become slot0, delay0, slot1 and delay1 by their order, whatever
 * their keys are, and what else it has is passed over. The arguments of any other message are set under their own keys.
 *
 * Memory is taken where a connection is accepted and none is left over from an earlier one; for a frame none is taken. There are
 * no timeouts here, since HAProxy has its own. The configuration of a HAProxy that goes with it is in examples/haproxy/. */
#define _GNU_SOURCE 1
#include <arpa/inet.h>
#include <errno.h>
#include <inttypes.h>
#include <netinet/tcp.h>
#include <signal.h>
#include <stdio.h>
#include <stdlib.h>
#include <sys/epoll.h>
#include <sys/signalfd.h>
#include <unistd.h>

#include "spop_build.h"

/* The agent's own max-frame-size; how many records a frame may have (in a HELLO each key is compared with each, so they are few);
 * and the bytes of an input and an output: an ACK has less than three for each byte of its NOTIFY, so all answers fit. */
enum { SIZE = SPOP_AGREED_FRAME, MOST = 64, INPUT = SIZE + 4, OUTPUT = 4 * INPUT };

/* The status codes of a DISCONNECT that are used here (SPOE.txt, 3.5). */
enum status { NORMAL = 0, IO_ERROR = 1, TOO_BIG = 3, INVALID = 4, NO_VERSION = 5, NO_SIZE = 6, NO_CAPABILITIES = 7,
              BAD_VERSION = 8, BAD_SIZE = 9, FRAGMENTED = 10, NO_RESOURCE = 13 };

/* With its last frame written a connection is ENDING. What comes is passed over then, until the other side has closed too: closed
 * at once, with bytes that nobody read, it would take that frame back. A CLOSED one is there to be used again. */
enum state { CLOSED, ENDING, GREETING, SERVING };

struct connection {
    struct connection *next;
    enum state state;
    int fd;
    uint32_t size;                      /* max-frame-size, as agreed */
    size_t in_len, out_len;
    uint8_t in[INPUT], out[OUTPUT];
};

static struct connection *connections;  /* all that there ever were */
static int poller, listener, stop, open_count;
static uint8_t pool[OUTPUT];
static struct spop_message messages[MOST];
static struct spop_pair pairs_read[MOST], pairs[MOST];
static struct spop_action actions[MOST];
static struct spop_frame frame;         /* the one that is answered */
static struct spop_builder builder;     /* its answer */

/* Writes the frame that was built, behind what is to be sent. */
static uint64_t write_frame(struct connection *c, uint64_t type, struct spop_ids ids, uint64_t *at)
{
    uint64_t number = spop_write(&builder, type, ids, spop_room_of(c->out + c->out_len, OUTPUT - c->out_len), c->size, at);

    c->out_len += number == SPOP_DONE ? *at : 0;
    return number;
}

/* Writes an AGENT-DISCONNECT, the last frame of a connection. */
static uint64_t disconnect(struct connection *c, enum status status, const char *text)
{
    uint64_t at;

    fprintf(stderr, "agent: connection %d: ended with status %d: %s\n", c->fd, (int)status, text);
    spop_builder_clear(&builder);
    spop_add_u32(&builder, "status-code", (uint32_t)status);
    spop_add_string(&builder, "message", text);
    c->state = ENDING;
    return write_frame(c, SPOP_AGENT_DISCONNECT, spop_ids_of(0, 0), &at);
}

/* Ends a connection for what the library refuses, in the input or in the answer. A NOTIFY without FIN is a fragment of one. */
static void refuse(struct connection *c, uint64_t number, uint64_t at, struct spop_bytes input)
{
    bool fragment = input.len > 8 && input.start[4] == SPOP_NOTIFY && (input.start[8] & SPOP_FIN) == 0;
    enum status status = number == SPOP_WAIT ? IO_ERROR
                         : number == SPOP_OVERSIZE || number == SPOP_OVER_LIMIT ? TOO_BIG
                         : number == SPOP_TABLE_FULL || number == SPOP_NO_ROOM ? NO_RESOURCE
                         : number == SPOP_SIZE_TOO_SMALL ? BAD_SIZE
                         : number == SPOP_UNKNOWN && fragment ? FRAGMENTED : INVALID;
    char text[128];

    snprintf(text, sizeof text, "%" PRIu64 " at %" PRIu64 ": %s", number, at, spop_refusal_text(number));
    disconnect(c, status, text);
}

/* Whether version 2.0 fits a text as "2.0, 1.5". Of a longer one the front is looked at. */
static bool version_fits(struct spop_bytes announced)
{
    struct spop_announced v;
    struct spop_version chosen;
    char text[64] = "", *rest = text, *word;

    memcpy(text, announced.start, announced.len < sizeof text ? announced.len : sizeof text - 1);
    while ((word = strsep(&rest, ",")) != NULL) {
        v.patch = 0;
        v.pre_release = word[strcspn(word, "-+")] == '-';
        if (sscanf(word, "%4" SCNu64 ".%4" SCNu64 ".%4" SCNu64, &v.major, &v.minor, &v.patch) >= 2 &&
            spop_choose_version(&v, 1, &chosen))
            return true;
    }
    return false;
}

/* Answers a HAPROXY-HELLO: agrees on a version and a size, or says why not. A health check is over with its answer. */
static uint64_t answer_hello(struct connection *c, uint64_t *at)
{
    struct spop_bytes versions, capabilities;
    uint32_t size;
    bool check;

    if (!spop_as_string(spop_frame_get(&frame, "supported-versions"), &versions))
        return disconnect(c, NO_VERSION, "the HELLO has no supported-versions");
    if (!spop_as_u32(spop_frame_get(&frame, "max-frame-size"), &size))
        return disconnect(c, NO_SIZE, "the HELLO has no max-frame-size");
    if (!spop_as_string(spop_frame_get(&frame, "capabilities"), &capabilities))
        return disconnect(c, NO_CAPABILITIES, "the HELLO has no capabilities");
    if (!version_fits(versions))
        return disconnect(c, BAD_VERSION, "the HELLO has no version 2");
    if (spop_negotiate_max_frame_size(size, SIZE, at) != SPOP_DONE)
        return SPOP_SIZE_TOO_SMALL;
    c->size = (uint32_t)*at;
    c->state = spop_as_bool(spop_frame_get(&frame, "healthcheck"), &check) && check ? ENDING : SERVING;
    spop_builder_clear(&builder);
    spop_add_string(&builder, "version", "2.0");
    spop_add_u32(&builder, "max-frame-size", c->size);
    spop_add_string(&builder, "capabilities", "pipelining");
    return write_frame(c, SPOP_AGENT_HELLO, spop_ids_of(0, 0), at);
}

/* Answers a NOTIFY by its ACK. HAProxy calls any bytes a string, and only UTF-8 is one here: other bytes go back as binary. */
static uint64_t answer_notify(struct connection *c, uint64_t *at)
{
    static const char *const names[] = {"slot0", "delay0", "slot1", "delay1"};
    struct spop_walk w = spop_walk_over(&frame);

    spop_builder_clear(&builder);
    while (spop_next_message(&w)) {
        bool upload = spop_bytes_are(w.name, "upload");

        for (size_t i = 0; (!upload || i < SPOP_COUNT(names)) && spop_next_argument(&w); i++) {
            if (w.value.kind == SPOP_KIND_STRING && !spop_bytes_are_text(w.value.bytes))
                w.value.kind = SPOP_KIND_BINARY;
            spop_set_var(&builder, SPOP_SCOPE_TRANSACTION, upload ? spop_text_of(names[i]) : w.key, w.value);
        }
    }
    return write_frame(c, SPOP_ACK, spop_head_ids(&frame.head), at);
}

/* Answers the frame that was read. One that is out of turn ends the connection, and so does a HAPROXY-DISCONNECT. */
static uint64_t answer(struct connection *c, uint64_t *at)
{
    uint32_t status = 0;

    if (frame.head.type == SPOP_HAPROXY_HELLO && c->state == GREETING)
        return answer_hello(c, at);
    if (frame.head.type == SPOP_NOTIFY && c->state == SERVING)
        return answer_notify(c, at);
    if (frame.head.type != SPOP_HAPROXY_DISCONNECT)
        return disconnect(c, INVALID, c->state == GREETING ? "a NOTIFY before the HELLO" : "a second HELLO");
    spop_as_u32(spop_frame_get(&frame, "status-code"), &status);
    fprintf(stderr, "agent: connection %d: HAProxy ends it with status %" PRIu32 "\n", c->fd, status);
    return disconnect(c, NORMAL, "normal");
}

/* Reads what has come, and answers the frames that are whole. One that is cut at the end has its missing bytes for a place. */
static ssize_t receive(struct connection *c)
{
    ssize_t got = recv(c->fd, c->in + c->in_len, INPUT - c->in_len, 0);
    struct spop_bytes rest = spop_bytes_of(c->in, c->in_len + (got > 0 ? (size_t)got : 0));
    uint64_t number = SPOP_DONE, at;

    while (number == SPOP_DONE && c->state >= GREETING) {
        number = spop_frame_read(&frame, rest, c->size, &at);
        if (number == SPOP_DONE) {
            rest = spop_bytes_behind(rest, at);
            number = answer(c, &at);
        }
        if (number != SPOP_DONE && (number != SPOP_WAIT || (got == 0 && rest.len > 0)))
            refuse(c, number, at, rest);
    }
    if (got == 0 && c->out_len == 0)
        c->state = CLOSED;
    c->in_len = c->state == ENDING ? 0 : rest.len;
    memmove(c->in, rest.start, c->in_len);
    return got;
}

/* Asks to be told of events. */
static bool wait_for(int change, int fd, uint32_t events, void *what)
{
    struct epoll_event event;

    event.events = events;
    event.data.ptr = what;
    return epoll_ctl(poller, change, fd, &event) == 0;
}

/* Answers, and sends what is taken. As long as something is not, nothing more is read. */
static void go_on(struct connection *c)
{
    ssize_t done = c->out_len == 0 ? receive(c) : 0;

    if (c->out_len > 0 && (done = send(c->fd, c->out, c->out_len, MSG_NOSIGNAL)) > 0) {
        c->out_len -= (size_t)done;
        memmove(c->out, c->out + done, c->out_len);
    }
    if ((done < 0 && errno != EAGAIN) || !wait_for(EPOLL_CTL_MOD, c->fd, c->out_len > 0 ? EPOLLOUT : EPOLLIN, c)) {
        if (c->state != ENDING)
            perror("agent: a connection is lost");
        c->state = CLOSED;
    }
    if (c->state == ENDING && c->out_len == 0)
        shutdown(c->fd, SHUT_WR);
    if (c->state == CLOSED) {
        close(c->fd);
        open_count--;
    }
}

/* Takes a connection. One that has the last file is turned away, so that the next one can be too and does not wait for ever. */
static void accept_one(void)
{
    int fd = accept4(listener, NULL, NULL, SOCK_NONBLOCK), spare = fd < 0 ? -1 : dup(fd);
    struct connection *c = connections;

    while (c != NULL && c->state != CLOSED)
        c = c->next;
    if (c == NULL && (c = (struct connection *)malloc(sizeof *c)) != NULL) {
        memset(c, 0, sizeof *c);        /* CLOSED, and its pages are there from now on */
        c->next = connections;
        connections = c;
    }
    if (spare < 0 || c == NULL || !wait_for(EPOLL_CTL_ADD, fd, EPOLLIN, c)) {
        perror("agent: a connection is turned away");
        close(fd);
    } else {
        c->state = GREETING;
        c->fd = fd;
        c->size = SIZE;
        c->in_len = c->out_len = 0;
        open_count++;
    }
    close(spare);
}

/* Tells every connection the end. They have two seconds to close: then the alarm is one more signal. */
static void say_goodbye(void)
{
    close(listener);
    alarm(2);
    for (struct connection *c = connections; c != NULL; c = c->next)
        if (c->state >= GREETING && disconnect(c, NORMAL, "the agent ends") == SPOP_DONE)
            go_on(c);
}

/* Takes what comes. After a signal the connections are told, and it is over once they are closed, or by one more signal. */
static void serve(void)
{
    struct epoll_event event;
    struct signalfd_siginfo taken;
    int signals = 0;

    while (signals == 0 || (signals == 1 && open_count > 0)) {
        if (epoll_wait(poller, &event, 1, -1) != 1)
            continue;
        if (event.data.ptr == &listener)
            accept_one();
        else if (event.data.ptr != &stop)
            go_on((struct connection *)event.data.ptr);
        else if (read(stop, &taken, sizeof taken) > 0 && signals++ == 0)
            say_goodbye();
    }
}

/* Lends the tables, and listens on a port and for signals. */
static bool start(uint16_t port)
{
    struct sockaddr_in address = {AF_INET, htons(port), {htonl(INADDR_LOOPBACK)}, {0}};
    sigset_t signals;
    int yes = 1;

    spop_builder_init(&builder, spop_room_of(pool, sizeof pool));
    spop_lend_pairs(&builder, pairs, MOST);
    spop_lend_actions(&builder, actions, MOST);
    spop_frame_init(&frame, messages, MOST, pairs_read, MOST);
    sigemptyset(&signals);
    sigaddset(&signals, SIGTERM);
    sigaddset(&signals, SIGINT);
    sigaddset(&signals, SIGALRM);
    return sigprocmask(SIG_BLOCK, &signals, NULL) == 0 && (stop = signalfd(-1, &signals, SFD_NONBLOCK)) >= 0 &&
           (poller = epoll_create1(0)) >= 0 && (listener = socket(AF_INET, SOCK_STREAM | SOCK_NONBLOCK, 0)) >= 0 &&
           setsockopt(listener, SOL_SOCKET, SO_REUSEADDR, &yes, sizeof yes) == 0 &&
           setsockopt(listener, IPPROTO_TCP, TCP_NODELAY, &yes, sizeof yes) == 0 &&
           bind(listener, (const struct sockaddr *)&address, sizeof address) == 0 && listen(listener, SOMAXCONN) == 0 &&
           wait_for(EPOLL_CTL_ADD, stop, EPOLLIN, &stop) && wait_for(EPOLL_CTL_ADD, listener, EPOLLIN, &listener);
}

int main(int count, char **words)
{
    char *end = NULL;
    long port = count > 1 ? strtol(words[1], &end, 10) : 12345;

    if (count > 2 || port < 1 || port > 65535 || (end != NULL && *end != '\0')) {
        fprintf(stderr, "usage: agent [PORT]\n");
        return 2;
    }
    if (!start((uint16_t)port)) {
        perror("agent: it does not listen");
        return 1;
    }
    fprintf(stderr, "agent: listening on port %ld\n", port);
    serve();
    return 0;
}
