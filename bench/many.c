/* many: thousands of clients of one server, each with a session that can be resumed (XEP-0198), in one thread.
 *
 *   many accounts N                             the account list: u0 to u(N-1), one password and salt for all
 *   many run PORT N ACTIVE MESSAGES WINDOW      logs in N clients; ACTIVE of them chat in pairs, MESSAGES each way; then every
 *                                               socket is reset in the middle of a second chat, and all sessions are resumed
 *
 * It prints one JSON line for each part. A client numbers the messages that it sends; one that is lost, repeated or out of order
 * ends the program with status 1.
 *
 * cc -O2 -o many many.c -lcrypto
 */
#define _GNU_SOURCE
#include <arpa/inet.h>
#include <errno.h>
#include <fcntl.h>
#include <netinet/tcp.h>
#include <openssl/evp.h>
#include <openssl/hmac.h>
#include <openssl/rand.h>
#include <stdarg.h>
#include <stdint.h>
#include <stdio.h>
#include <stdlib.h>
#include <string.h>
#include <sys/epoll.h>
#include <sys/resource.h>
#include <sys/socket.h>
#include <time.h>
#include <unistd.h>

#define DOMAIN "example.org"
#define SM "urn:xmpp:sm:3"
#define ROUNDS 4096
#define AT_ONCE 200 /* so many clients log in at the same time */

static const char password[] = "correct horse";
static const unsigned char salt[] = "the salt of all";
static unsigned char salted1[20], salted256[32];

enum stage { OUT, FEATURES, CHALLENGE, SUCCESS, FEATURES_AGAIN, BOUND, ENABLED, RESUMED, ON };

struct client {
    int fd, number; enum stage stage;
    char *in; size_t in_len, in_room;
    char *out; size_t out_len, out_room;
    char nonce[32], id[128];
    struct client *peer;               /* the other of its pair, if it chats */
    uint32_t handled;                  /* the server's stanzas, for h */
    long sent, acked, heard;           /* messages; numbers run on over resumptions */
    uint32_t queued_base;              /* stanzas that it sent before its first message */
    char *kept[4096]; long kept_from;  /* messages that were not acknowledged yet, to be sent again */
    long goal;
};

static int ep, port, many; static struct client *clients; static long logins, chats, window, resent;

static double now(void) { struct timespec t; clock_gettime(CLOCK_MONOTONIC, &t); return t.tv_sec + t.tv_nsec / 1e9; }
static void fail(struct client *c, const char *why) {
    fprintf(stderr, "u%d, stage %d: %s; has %.*s\n", c->number, c->stage, why, c->in_len < 400 ? (int)c->in_len : 400, c->in ? c->in : "");
    exit(1);
}
static void mac(const EVP_MD *md, const void *key, int n, const void *text, size_t len, unsigned char *out) { unsigned l; HMAC(md, key, n, text, len, out, &l); }
static void b64(const void *s, int n, char *out) { out[EVP_EncodeBlock((unsigned char *)out, s, n)] = 0; }
static int unb64(const char *s, char *out) {
    int n = EVP_DecodeBlock((unsigned char *)out, (const unsigned char *)s, strlen(s));
    for (size_t l = strlen(s); l && s[l - 1] == '='; l--) n--;
    out[n] = 0; return n;
}
static void salt_password(void) {
    PKCS5_PBKDF2_HMAC(password, strlen(password), salt, sizeof salt - 1, ROUNDS, EVP_sha1(), 20, salted1);
    PKCS5_PBKDF2_HMAC(password, strlen(password), salt, sizeof salt - 1, ROUNDS, EVP_sha256(), 32, salted256);
}
static void key(const EVP_MD *md, const unsigned char *salted, int n, char *stored, char *server) {
    unsigned char k[32], h[32];
    mac(md, salted, n, "Client Key", 10, k); EVP_Digest(k, n, h, NULL, md, NULL); b64(h, n, stored);
    mac(md, salted, n, "Server Key", 10, k); b64(k, n, server);
}
static int accounts(int n) {
    char s[64], a[4][64];
    salt_password(); b64(salt, sizeof salt - 1, s);
    key(EVP_sha1(), salted1, 20, a[0], a[1]); key(EVP_sha256(), salted256, 32, a[2], a[3]);
    for (int i = 0; i < n; i++) printf("u%d %d %s %s %s %s %s\n", i, ROUNDS, s, a[0], a[1], a[2], a[3]);
    return 0;
}

/* ---- what is sent ---- */
static void watch(struct client *c, int op) {
    struct epoll_event e = { .events = EPOLLIN | (c->out_len || c->stage == OUT ? EPOLLOUT : 0), .data.ptr = c };
    epoll_ctl(ep, op, c->fd, &e);
}
static void flush(struct client *c) {
    size_t at = 0;
    while (at < c->out_len) {
        ssize_t k = send(c->fd, c->out + at, c->out_len - at, MSG_NOSIGNAL);
        if (k < 0) { if (errno == EAGAIN) break; fail(c, strerror(errno)); }
        at += k;
    }
    int waited = c->out_len != at;
    memmove(c->out, c->out + at, c->out_len - at); c->out_len -= at;
    if (waited || at) watch(c, EPOLL_CTL_MOD);
    if (!c->out_len) { free(c->out); c->out = NULL; c->out_room = 0; }
}
static void say(struct client *c, const char *form, ...) {
    char t[4096]; va_list words;
    va_start(words, form); size_t n = vsnprintf(t, sizeof t, form, words); va_end(words);
    if (c->out_len + n > c->out_room) c->out = realloc(c->out, c->out_room = (c->out_len + n) * 2);
    memcpy(c->out + c->out_len, t, n); c->out_len += n;
}
static void begin(struct client *c) {
    say(c, "<?xml version='1.0'?><stream:stream xmlns='jabber:client' xmlns:stream='http://etherx.jabber.org/streams' to='" DOMAIN "' version='1.0'>");
}
static void put_message(struct client *c, long number) {
    char t[256]; int n = snprintf(t, sizeof t, "<message to='u%d@" DOMAIN "/r' type='chat'><body>%ld</body></message>", c->peer->number, number);
    char **slot = &c->kept[number % 4096];
    if (slot && *slot) free(*slot);
    *slot = strndup(t, n); say(c, "%s", t);
}
static void chat(struct client *c) {
    if (!c->peer || c->stage != ON) return;
    long from = c->sent;
    while (c->sent < c->goal && c->sent - c->acked < window) { put_message(c, c->sent); c->sent++; }
    if (c->sent > from) say(c, "<r xmlns='" SM "'/>");
}
static void count(struct client *c, uint32_t h) {
    long acked = (long)(uint32_t)(h - c->queued_base);
    if (acked > c->sent) fail(c, "more is acknowledged than was sent");
    while (c->acked < acked) { free(c->kept[c->acked % 4096]); c->kept[c->acked++ % 4096] = NULL; }
}

/* ---- what is heard ---- */
static int between(const char *s, const char *a, const char *b, char *out, size_t n) {
    const char *p = strstr(s, a), *q = p ? strstr(p + strlen(a), b) : NULL;
    if (!q || (size_t)(q - p - strlen(a)) >= n) return 0;
    memcpy(out, p + strlen(a), q - p - strlen(a)); out[q - p - strlen(a)] = 0; return 1;
}
static void prove(struct client *c, const char *first) {
    char said[512], sf[512], nonce[256], bare[128], fin[512], auth[2048], proof64[64], enc[1024];
    unsigned char ck[32], stored[32], sig[32];
    if (!between(first, ">", "<", said, sizeof said)) fail(c, "a challenge");
    unb64(said, sf);
    if (!between(sf, "r=", ",", nonce, sizeof nonce)) fail(c, "a nonce");
    snprintf(bare, sizeof bare, "n=u%d,r=%s", c->number, c->nonce);
    mac(EVP_sha256(), salted256, 32, "Client Key", 10, ck); EVP_Digest(ck, 32, stored, NULL, EVP_sha256(), NULL);
    snprintf(fin, sizeof fin, "c=biws,r=%s", nonce); snprintf(auth, sizeof auth, "%s,%s,%s", bare, sf, fin);
    mac(EVP_sha256(), stored, 32, auth, strlen(auth), sig);
    for (int i = 0; i < 32; i++) ck[i] ^= sig[i];
    b64(ck, 32, proof64); snprintf(auth, sizeof auth, "%s,p=%s", fin, proof64); b64(auth, strlen(auth), enc);
    say(c, "<response xmlns='urn:ietf:params:xml:ns:xmpp-sasl'>%s</response>", enc);
}
static void hear_message(struct client *c, const char *element) {
    char body[32];
    c->handled++;
    if (!between(element, "<body>", "</body>", body, sizeof body)) fail(c, "a message without a body");
    long number = atol(body);
    if (number != c->heard) { fprintf(stderr, "u%d: heard message %ld, and %ld was next\n", c->number, number, c->heard); exit(1); }
    c->heard++; chats++;
}
static void go_on(struct client *c, const char *element) {
    if (!strncmp(element, "<message", 8)) hear_message(c, element);
    else if (!strncmp(element, "<r ", 3)) say(c, "<a xmlns='" SM "' h='%u'/>", c->handled);
    else if (!strncmp(element, "<a ", 3)) { char h[32]; if (between(element, "h='", "'", h, sizeof h)) count(c, strtoul(h, NULL, 10)); chat(c); }
    else if (!strncmp(element, "<iq", 3) || !strncmp(element, "<presence", 9)) c->handled++;
    else fail(c, element);
}
static void step(struct client *c, const char *element) {
    char h[32]; unsigned char raw[18]; char bare[128], enc[256];
    switch (c->stage) {
    case FEATURES:
        RAND_bytes(raw, 18); b64(raw, 18, c->nonce);
        snprintf(bare, sizeof bare, "n,,n=u%d,r=%s", c->number, c->nonce); b64(bare, strlen(bare), enc);
        say(c, "<auth xmlns='urn:ietf:params:xml:ns:xmpp-sasl' mechanism='SCRAM-SHA-256'>%s</auth>", enc); c->stage = CHALLENGE; break;
    case CHALLENGE: if (strncmp(element, "<challenge", 10)) fail(c, element); prove(c, element); c->stage = SUCCESS; break;
    case SUCCESS: if (strncmp(element, "<success", 8)) fail(c, element); begin(c); c->stage = FEATURES_AGAIN; break;
    case FEATURES_AGAIN:
        if (c->id[0]) { say(c, "<resume xmlns='" SM "' previd='%s' h='%u'/>", c->id, c->handled); c->stage = RESUMED; break; }
        say(c, "<iq type='set' id='b'><bind xmlns='urn:ietf:params:xml:ns:xmpp-bind'><resource>r</resource></bind></iq>"); c->stage = BOUND; break;
    case BOUND: if (!strstr(element, "type='result'")) fail(c, element); say(c, "<enable xmlns='" SM "' resume='true'/>"); c->stage = ENABLED; break;
    case ENABLED:
        if (!between(element, " id='", "'", c->id, sizeof c->id)) fail(c, element);
        c->stage = ON; logins++; break;
    case RESUMED:
        if (strncmp(element, "<resumed", 8) || !between(element, "h='", "'", h, sizeof h)) fail(c, element);
        count(c, strtoul(h, NULL, 10)); c->stage = ON; logins++;
        for (long n = c->acked; n < c->sent; n++) { say(c, "%s", c->kept[n % 4096]); resent++; }
        if (c->sent > c->acked) say(c, "<r xmlns='" SM "'/>");
        chat(c); break;
    default: go_on(c, element);
    }
}
/* The end of the first element of what was read, or NULL: a stream's header is passed over. */
static char *end_of(char *s) {
    char *gt = strchr(s, '>'); if (!gt) return NULL;
    if (!strncmp(s, "<?xml", 5) || !strncmp(s, "<stream:stream", 14) || gt[-1] == '/') return gt + 1;
    char name[64], close[72]; size_t n = strcspn(s + 1, " />"); if (n >= sizeof name) return NULL;
    memcpy(name, s + 1, n); name[n] = 0; snprintf(close, sizeof close, "</%s>", name);
    char *e = strstr(gt, close); return e ? e + strlen(close) : NULL;
}
static void hear(struct client *c) {
    for (;;) {
        if (c->in_room < c->in_len + 2048) c->in = realloc(c->in, c->in_room = c->in_len + 8192);
        ssize_t k = recv(c->fd, c->in + c->in_len, c->in_room - c->in_len - 1, 0);
        if (k < 0 && errno == EAGAIN) break;
        if (k <= 0) fail(c, k ? strerror(errno) : "the server closed the stream");
        c->in_len += k; c->in[c->in_len] = 0;
    }
    char *s = c->in, *e;
    while (*s == '<' && (e = end_of(s))) {
        char was = *e; *e = 0;
        if (!strncmp(s, "<stream:error", 13)) fail(c, s);
        if (strncmp(s, "<?xml", 5) && strncmp(s, "<stream:stream", 14)) step(c, s);
        *e = was; s = e;
    }
    c->in_len -= s - c->in; memmove(c->in, s, c->in_len + 1);
    if (!c->in_len) { free(c->in); c->in = NULL; c->in_room = 0; }
    flush(c);
}

/* ---- the parts ---- */
static void dial(struct client *c) {
    struct sockaddr_in a = { .sin_family = AF_INET, .sin_port = htons(port), .sin_addr.s_addr = htonl(INADDR_LOOPBACK) };
    int one = 1; c->fd = socket(AF_INET, SOCK_STREAM | SOCK_NONBLOCK, 0);
    if (c->fd < 0 || (connect(c->fd, (void *)&a, sizeof a) && errno != EINPROGRESS)) fail(c, strerror(errno));
    setsockopt(c->fd, IPPROTO_TCP, TCP_NODELAY, &one, sizeof one);
    c->stage = OUT; c->in_len = c->out_len = 0; watch(c, EPOLL_CTL_ADD);
}
static void wait_some(void) {
    struct epoll_event es[512]; int n = epoll_wait(ep, es, 512, 30000);
    if (n == 0) { fprintf(stderr, "nothing came for 30 seconds: %ld logins, %ld messages\n", logins, chats); exit(1); }
    for (int i = 0; i < n; i++) {
        struct client *c = es[i].data.ptr;
        if (c->stage == OUT) { c->stage = FEATURES; begin(c); flush(c); }
        if (es[i].events & (EPOLLIN | EPOLLHUP | EPOLLERR)) hear(c); else if (c->out_len) flush(c);
    }
}
static double log_in_all(void) {
    double from = now(); long base = logins; int next = 0;
    while (logins - base < many) { while (next < many && next - (logins - base) < AT_ONCE) dial(&clients[next++]); wait_some(); }
    return now() - from;
}
static double chat_until(long total) { double from = now(); while (chats < total) wait_some(); return now() - from; }
static void set_goal(int active, long messages) {
    for (int i = 0; i < active; i++) { clients[i].goal += messages; chat(&clients[i]); flush(&clients[i]); }
}
static void reset_all(void) {
    struct linger now_gone = { 1, 0 };
    for (int i = 0; i < many; i++) {
        struct client *c = &clients[i];
        setsockopt(c->fd, SOL_SOCKET, SO_LINGER, &now_gone, sizeof now_gone); close(c->fd);
        free(c->in); free(c->out); c->in = c->out = NULL; c->in_len = c->in_room = c->out_len = c->out_room = 0;
    }
}
static int run(char **words) {
    port = atoi(words[0]); many = atoi(words[1]); int active = atoi(words[2]) & ~1; long messages = atol(words[3]); window = atol(words[4]);
    if (window > 4096) window = 4096;
    struct rlimit most = { many + 64, many + 64 }; setrlimit(RLIMIT_NOFILE, &most);
    salt_password(); ep = epoll_create1(0); clients = calloc(many, sizeof *clients);
    for (int i = 0; i < many; i++) { clients[i].number = i; if (i < active) clients[i].peer = &clients[i ^ 1]; }
    double took = log_in_all(); printf("{\"logins\": %d, \"seconds\": %.2f, \"a_second\": %.0f}\n", many, took, many / took); fflush(stdout);
    set_goal(active, messages); took = chat_until(messages * active);
    printf("{\"messages\": %ld, \"seconds\": %.2f, \"a_second\": %.0f}\n", messages * active, took, messages * active / took); fflush(stdout);
    set_goal(active, messages); chat_until(messages * active + messages * active / 2); reset_all();
    took = log_in_all(); printf("{\"resumed\": %d, \"seconds\": %.2f, \"sent_again\": %ld}\n", many, took, resent); fflush(stdout);
    chat_until(2 * messages * active); printf("{\"all\": \"in order, once\", \"messages\": %ld}\n", chats); return 0;
}
int main(int count_of_words, char **words) {
    if (count_of_words == 3 && !strcmp(words[1], "accounts")) return accounts(atoi(words[2]));
    if (count_of_words == 7 && !strcmp(words[1], "run")) return run(words + 2);
    fprintf(stderr, "usage: many accounts N | many run PORT N ACTIVE MESSAGES WINDOW\n"); return 2;
}
